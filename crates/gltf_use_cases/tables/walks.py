"""Walks over nodes, depth first, parents before children, siblings in stored order (glTF 2.0,
section 3.5.1). The small ones were walked by hand. The large ones follow from what they are."""
import json


def document(children, roots):
    """The text of a document of nodes with these children, and of one scene with these roots."""
    nodes = [{"children": below} if below else {} for below in children]
    scenes = [{"nodes": roots} if roots else {}]
    text = {"asset": {"version": "2.0"}, "scenes": scenes, "nodes": nodes}
    return json.dumps(text, separators=(",", ":"))


# A ladder: each node has the next two as its children. There are more paths from its first node
# than anything can walk, and two steps a node.
LADDER = 60


def ladder():
    """Down the ladder by the nearer children, and then the farther ones, from the last upwards."""
    down = ["0 at 0", *(f"{node} at {node} below {node - 1}" for node in range(1, LADDER))]
    up = [f"{node + 2} at {node + 1} below {node} again" for node in reversed(range(LADDER - 2))]
    return "; ".join([*down, *up])


TREE = document([[1, 4], [2, 3], [], [], [5], []], [0])
TWO_ROOTS = document([[2], [], [1]], [1, 0])
SHARED = document([[1, 2], [3], [3], [4], []], [0])
OWN = document([[0]], [0])
CYCLE = document([[1], [2], [3, 0], [1]], [0])
NAMED_TWICE = document([[1], []], [0, 0])
BELOW_AND_ROOT = document([[1], []], [0, 1])
TWICE_A_CHILD = document([[1, 1], []], [0])
BACKWARDS = document([[], [0], [1]], [2])
LADDER_TEXT = document([list(range(it + 1, min(it + 3, LADDER))) for it in range(LADDER)], [0])
# So many nodes that a walk by recursion, or one that takes more than a step each, would show.
MANY = 10**5

ROWS = [
    # Trees.
    (f"walk 0 : {TREE}", "0 at 0; 1 at 1 below 0; 2 at 2 below 1; 3 at 2 below 1; 4 at 1 below 0; "
     "5 at 2 below 4"),
    (f"below 0 : {TREE}", "1 at 0; 2 at 1 below 1; 3 at 1 below 1; 4 at 0; 5 at 1 below 4"),
    (f"below 1 : {TREE}", "2 at 0; 3 at 0"),
    (f"below 5 : {TREE}", "no steps"),
    (f"below 6 : {TREE}", "no node"),
    (f"walk 1 : {TREE}", "no scene"),
    (f"walk 0 : {TWO_ROOTS}", "1 at 0; 0 at 0; 2 at 1 below 0; 1 at 2 below 2 again"),
    (f"walk 0 : {BACKWARDS}", "2 at 0; 1 at 1 below 2; 0 at 2 below 1"),
    # A child of two nodes is entered once.
    (f"walk 0 : {SHARED}", "0 at 0; 1 at 1 below 0; 3 at 2 below 1; 4 at 3 below 3; "
     "2 at 1 below 0; 3 at 2 below 2 again"),
    (f"walk 0 : {TWICE_A_CHILD}", "0 at 0; 1 at 1 below 0; 1 at 1 below 0 again"),
    # A node below itself.
    (f"walk 0 : {OWN}", "0 at 0; 0 at 1 below 0 again"),
    (f"below 0 : {OWN}", "0 at 0; 0 at 1 below 0 again"),
    (f"walk 0 : {CYCLE}", "0 at 0; 1 at 1 below 0; 2 at 2 below 1; 3 at 3 below 2; "
     "1 at 4 below 3 again; 0 at 3 below 2 again"),
    (f"below 2 : {CYCLE}", "3 at 0; 1 at 1 below 3; 2 at 2 below 1; 3 at 3 below 2 again; "
     "0 at 3 below 2; 1 at 4 below 0 again; 0 at 0 again"),
    # A root that is named twice, and one that is a child too.
    (f"walk 0 : {NAMED_TWICE}", "0 at 0; 1 at 1 below 0; 0 at 0 again"),
    (f"walk 0 : {BELOW_AND_ROOT}", "0 at 0; 1 at 1 below 0; 1 at 0 again"),
    # A scene without nodes.
    (f"walk 0 : {document([[1], []], [])}", "no steps"),
    ('walk 0 : {"asset":{"version":"2.0"},"scenes":[{}]}', "no steps"),
    ('walk 0 : {"asset":{"version":"2.0"}}', "no scene"),
    (f"walk 0 : {LADDER_TEXT}", ladder()),
    # Chains, and rings, whose last step is the first node again.
    ("chain 1", "1 steps, the last 0 at 0"),
    ("ring 1", "2 steps, the last 0 at 1 below 0 again"),
    ("chain 3", "3 steps, the last 2 at 2 below 1"),
    (f"chain {MANY}", f"{MANY} steps, the last {MANY - 1} at {MANY - 1} below {MANY - 2}"),
    ("ring 1000", "1001 steps, the last 0 at 1000 below 999 again"),
]
