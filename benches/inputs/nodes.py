"""Texts of nodes and skins that `gltf_show inspect` looks at."""
import functools
import random

from make_files import document, listed, spelled
from row import Row

INSPECT = "gltf_show inspect in.gltf"
SEED = 65


def chain(order, skins):
    """A text of nodes each of which is the child of the one before it in this order of indices."""
    nodes = ["{}"] * len(order)
    for parent, child in zip(order, order[1:]):
        nodes[parent] = f'{{"children":[{child}]}}'
    return document({"nodes": "[" + ",".join(nodes) + "]", "skins": spelled(skins),
                     "scenes": spelled([{"nodes": order[:1]}]), "scene": "0"})


def whole_skin(order):
    """A skin of all nodes but the first, whose skeleton is the second."""
    return {"joints": order[1:], "skeleton": order[1]}


def skins_along(order, count):
    """So many skins, whose skeletons are spread over a chain: the joints of each are the skeleton
    of the next one and the last node."""
    at = [order[number * (len(order) - 1) // count] for number in range(count + 1)]
    return [{"joints": [at[number + 1], order[-1]][:1 + (number < count - 1)], "skeleton": top}
            for number, top in enumerate(at[:-1])]


def in_order(count):
    order = list(range(max(count, 2)))
    return chain(order, [whole_skin(order)])


def in_no_order(count):
    order = list(range(max(count, 2)))
    random.Random(SEED).shuffle(order)
    return chain(order, [whole_skin(order), *skins_along(order, max(count // 60, 1))])


def skins_of(joints, count):
    """So many skins, each of all nodes of a chain, whose first node is their skeleton."""
    order = list(range(joints))
    return chain(order, [{"joints": order, "skeleton": 0}] * count)


def unused(count):
    """Nodes that nothing names."""
    return document({"nodes": listed({}, count)})


ROWS = [
    Row(INSPECT, "a chain of 60,000 nodes, a skin of all from its skeleton on, the second one",
        60_000, in_order),
    Row(INSPECT, "2,000 skins of 300 joints", 2_000, functools.partial(skins_of, 300)),
    Row(INSPECT, "a chain of 60,000 nodes in no order, such a skin and 1,000 along the chain",
        60_000, in_no_order),
    *(Row(f"{INSPECT}{word}", "1,000,000 nodes that nothing names", 1_000_000, unused)
      for word in ("", " --json", " --html")),
]
