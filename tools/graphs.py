"""The rows of findings.py on the hierarchy of nodes: loops (glTF 2.0, 3.5.2), the common roots of
joints and the skeletons of skins (3.7.3.2). Those of small documents are by hand. Those of graphs
that are made by rule have their findings by single steps from a node to its parent, and never from
the program."""

ROOTED = {"extras": "a root"}


def nodes(*nodes, **members):
    return {"nodes": [*nodes], **members}


def loops(*nodes):
    return [("NODE_LOOP", f"/nodes/{i}") for i in nodes]


def apart(*skins):
    return [("SKIN_NO_COMMON_ROOT", f"/skins/{i}/joints") for i in skins]


def astray(*skins):
    return [("SKIN_SKELETON_INVALID", f"/skins/{i}/skeleton") for i in skins]


def past(*skins):
    return [("UNRESOLVED_REFERENCE", f"/skins/{i}/skeleton") for i in skins]


def chain(n):
    """Nodes of which each is the child of the one before."""
    return [{"children": [i + 1]} for i in range(n - 1)] + [ROOTED]


def skins(*joints):
    return {"skins": [{"joints": them} for them in joints]}


def skeleton(joints, node):
    return {"joints": joints, "skeleton": node}


RING = [{"children": [1]}, {"children": [2]}, {"children": [0]}]
# A loop of three nodes and a skeleton: on it, elsewhere, and no node at all.
ROWS = [
    (nodes(*RING, skins=[skeleton([0], 0)]), loops(0, 1, 2)),
    (nodes(*RING, ROOTED, skins=[skeleton([3], 3)]), loops(0, 1, 2)),
    (nodes(*RING, ROOTED, skins=[skeleton([3], 4)]), loops(0, 1, 2) + past(0)),
]

# Nodes on loops, and the common roots of joints.
ROWS += [
    (nodes(*chain(1000)), []),
    (nodes({"children": [0]}), loops(0)),
    (nodes({"children": [1]}, {"children": [0]}), loops(0, 1)),
    (nodes(*RING), loops(0, 1, 2)),
    (nodes({"children": [1, 3]}, {"children": [2]}, {"children": [0]}, ROOTED), loops(0, 1, 2)),
    (nodes({"children": [1]}, ROOTED, {"children": [2]}), loops(2)),
    (nodes(*chain(5), **skins([4, 2], [0, 1])), []),
    (nodes(*chain(3), ROOTED, **skins([2, 0], [2, 3], [3])), apart(1)),
    (nodes({"children": [1, 2]}, ROOTED, {"children": [3]}, ROOTED, **skins([1, 3], [3, 2, 1])),
     []),
    (nodes(ROOTED, ROOTED, **skins([0, 1], [1, 1, 0])),
     apart(0, 1) + [("DUPLICATE_ELEMENTS", "/skins/1/joints/1")]),
]

# Joints on loops, and below them: where one leads to a loop, nothing is found of the common root.
ROWS += [
    *((nodes(*RING, ROOTED, {"children": [5]}, ROOTED, **skins(joints)), loops(0, 1, 2))
      for joints in ([0, 1], [0, 1, 2], [0, 3], [3, 0], [0, 3, 5], [3, 5, 0])),
    (nodes(*RING, ROOTED, {"children": [5]}, ROOTED, **skins([3, 5], [4, 5], [5, 3])),
     loops(0, 1, 2) + apart(0, 2)),
    (nodes({"children": [1]}, {"children": [2, 3]}, {"children": [1]}, ROOTED, ROOTED,
           **skins([3, 4], [4, 3])),
     loops(1, 2) + [("NODE_PARENT_OVERRIDE", "/nodes/2/children/0")]),
    (nodes({"children": [0, 1]}, ROOTED, ROOTED, **skins([1, 2], [0, 2], [0, 1])), loops(0)),
]

FORK = [{"children": [1, 2]}, {"children": [3]}, ROOTED, {"children": [4]}, ROOTED]
# The skeleton is each joint or above it.
ROWS += [
    (nodes(*chain(5), skins=[skeleton([2, 3, 4], node) for node in range(5)]), astray(3, 4)),
    (nodes(*FORK, skins=[skeleton([3, 4], node) for node in range(5)]), astray(2, 4)),
    (nodes(*FORK, skins=[skeleton([4, 2], node) for node in range(5)]), astray(1, 2, 3, 4)),
    (nodes(*FORK, ROOTED, skins=[skeleton([5], 5), skeleton([4], 5)]), astray(1)),
    (nodes(ROOTED, *({"children": [i]} for i in range(999)),
           skins=[skeleton([0], node) for node in (0, 1, 511, 512, 998, 999)]), []),
    (nodes(*chain(1000), skins=[skeleton([512], node) for node in (0, 511, 512, 513, 999)]),
     astray(3, 4)),
    (nodes(*chain(2), skins=[skeleton([0], 2), skeleton([1, 2], 0)]),
     past(0) + [("UNRESOLVED_REFERENCE", "/skins/1/joints/1")]),
    (nodes({"children": [1]}, {"children": [0]}, ROOTED, skins=[skeleton([2], 0)]), loops(0, 1)),
]


# ---- graphs by rule: the parent of each node, None where it has none

def way(parents, node):
    """The node, its parent and so on, each once."""
    met = {}
    while node is not None and node not in met:
        met[node] = len(met)
        node = parents[node]
    return met


def is_on_loop(parents, node):
    return any(parents[above] == node for above in way(parents, node))


def root(parents, node):
    """The root above a node, or the node itself; None where the steps lead to a loop."""
    last = list(way(parents, node))[-1]
    return last if parents[last] is None else None


def found(parents, *skins):
    """What is found. Joints are judged where none of them leads to a loop, skeletons where no node is
    on a loop, but one that is its own child."""
    on_loop = [node for node in range(len(parents)) if is_on_loop(parents, node)]
    judged = all(parents[node] == node for node in on_loop)
    them = loops(*on_loop)
    for i, (joints, above) in enumerate(skins):
        roots = {root(parents, joint) for joint in joints}
        if None not in roots and len(roots) > 1:
            them += apart(i)
        if above >= len(parents):
            them += past(i)
        elif judged and any(above not in way(parents, joint) for joint in joints):
            them += astray(i)
    return them


def graph(parents, *skins):
    """The row of these nodes, and of skins with these joints and skeletons."""
    made = [{"extras": i} for i in range(len(parents))]
    for child, parent in enumerate(parents):
        if parent is not None:
            made[parent].setdefault("children", []).append(child)
    return nodes(*made, skins=[skeleton(*skin) for skin in skins]), found(parents, *skins)


def joined(*graphs):
    """Several graphs as one, each behind those before it."""
    parents = []
    for more in graphs:
        parents += [None if it is None else len(parents) + it for it in more]
    return parents


def renumbered(numbers, parents, *skins):
    """The row where each node has the number that stands there."""
    moved = [None] * len(parents)
    for node, parent in enumerate(parents):
        moved[numbers[node]] = None if parent is None else numbers[parent]
    numbers = dict(enumerate(numbers))
    return graph(moved, *(([numbers[it] for it in joints], numbers.get(above, above))
                          for joints, above in skins))


def in_three_orders(parents, *skins):
    """The rows of these nodes, of the same from the last to the first, and in no order."""
    numbers = range(len(parents))
    drawn = sorted(numbers, key=lambda node: node * 40503 % 65537)
    shuffled = sorted(numbers, key=drawn.__getitem__)
    return [graph(parents, *skins), renumbered(numbers[::-1], parents, *skins),
            renumbered(shuffled, parents, *skins)]


def ring(n):
    return [(node + 1) % n for node in range(n)]


def ring_with_tails(n):
    """A loop, and two chains that hang on it."""
    parents = ring(n)
    for length, on in ((n + 3, 0), (1, n // 2)):
        first = len(parents)
        parents += [on, *range(first, first + length - 1)]
    return parents


LINE = [None, *range(999)]
BINARY = [None, *((node - 1) // 2 for node in range(1, 127))]
# A chain that is cut, and of which the parts hang on one root.
COMB = [None, *(0 if node % 10 == 1 else node - 1 for node in range(1, 101))]
FAR = [([999], 0), ([999, 500], 1), ([998], 999), ([512, 999], 512), ([511, 999], 512),
       ([999], 744), ([744], 743), ([743], 744), ([0, 1], 0), ([1, 0], 1), ([999], 1000)]
ROWS += [
    # Loops of each length, beside a tree with the joints and the skeleton, and with these on them.
    *(graph(joined(ring_with_tails(n), [None, 0, 1]),
            ([3 * n // 2], 0), ([2 * n + 6, 2 * n + 4], 2 * n + 4), ([2 * n + 4], 2 * n + 5),
            ([2 * n + 4], 2 * n + 7))
      for n in range(2, 18)),
    *(graph(joined([None], ring(n)), ([0], 0)) for n in range(2, 18)),
    # Several loops.
    *in_three_orders(joined(*(ring_with_tails(n) for n in (3, 2, 5, 9, 16)), [None, 0, 1]),
                     ([0, 8], 0), ([90, 89], 88), ([88], 90), ([20], 5), ([5], 20), ([0], 91)),
    *in_three_orders(joined(ring(3), ring(3), ring(6)), ([0, 3], 6), ([0, 6], 0), ([6, 9], 9)),
    # A node that is its own child.
    *in_three_orders(joined([0, 0, 1], [None, 0]), ([2, 1], 0), ([2], 3), ([0], 1), ([4], 3)),
    *in_three_orders(joined([0, 0, 1], ring(3)), ([2, 1], 0), ([2], 3), ([0], 1)),
    # Trees.
    *in_three_orders(LINE, *FAR),
    *in_three_orders(BINARY, ([126, 125], 62), ([126, 125], 30), ([126, 63], 0), ([126], 126),
                     ([62], 126), ([30, 61], 30), ([30, 61], 14), ([7], 8)),
    *in_three_orders(COMB, ([10, 5], 1), ([10, 11], 1), ([10, 11], 0), ([20], 11), ([20], 12),
                     ([12], 20), ([100], 91), ([100], 90)),
    *in_three_orders(joined(LINE, BINARY, COMB), ([999, 1126], 0), ([1126], 1000), ([1126], 1127),
                     ([1227], 1127), ([1227], 999), ([999], 1)),
]
