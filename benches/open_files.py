#!/usr/bin/env python3
"""Writes files of the kinds that the workload `open` of bench/workloads.txt opens:
`open_files.py FOLDER [--divisor N] [NAME..]`.

They have the shapes and sizes of its files: their records are of the same templates, which
crates/gltf_bench_files has. Digits and floats are of a seed, so that they are the same bytes in
each run."""
import functools
import itertools
import json
import pathlib
import random
import re
import struct
import sys

import make_files
from make_files import BYTE, FLOAT, SHORT, container, data_uri

TOP = pathlib.Path(__file__).resolve().parent.parent
SEED = 20261126
# How many joints, keyframes and vertices a character has, and its greatest float.
JOINTS, KEYS, VERTICES, MOST = 200, 30, 200, 1.9990234375


def templates(name):
    """The texts that a module of the templates names."""
    source = (TOP / "crates" / "gltf_bench_files" / "src" / f"{name}.rt").read_text("utf-8")
    raw = re.findall(r'const (\w+): &str = r#"(.*?)"#;', source, re.DOTALL)
    spelled = re.findall(r'const (\w+): &str = ("(?:\\.|[^"\\])*");', source)
    return {**dict(raw), **{constant: json.loads(text) for constant, text in spelled}}


def number(letter, k):
    """What a letter stands for in the record of a number: as `number_at` of the templates."""
    for row, first in (("0123456789", 0), ("pqrs", 0), ("vw", 0), ("abc", 0), ("efg", 40)):
        if letter in row:
            return len(row) * k + row.index(letter) + first
    return {"k": k, "j": k, "m": k % 64, "o": 840 * k, "x": 840 * k + 768}[letter]


class Text:
    """A text of templates. `@d` stands for six digits of chance, `@` and another letter for a
    number of the record."""

    def __init__(self, seed, is_pretty=False):
        self.chance, self.is_pretty, self.parts = random.Random(seed), is_pretty, []

    def add(self, template, numbers=(0,)):
        """Adds the records of these numbers, with commas between them."""
        if not self.is_pretty:
            template = re.sub(r"\n *|(?<=:) +", "", template)
        texts, letters = re.split("@.", template), re.findall("@(.)", template)
        for place, k in enumerate(numbers):
            filled = [self.spelled(letter, k) for letter in letters]
            pieces = itertools.zip_longest(texts, filled, fillvalue="")
            self.parts += ["," if place else "", *itertools.chain.from_iterable(pieces)]

    def spelled(self, letter, k):
        return f"{self.chance.randrange(10**6):06}" if letter == "d" else str(number(letter, k))

    def records(self, name, template, count, last=""):
        """Adds a member: the list of so many records, and a text behind them."""
        self.add(f'\n  "{name}": [')
        self.add(template, range(count))
        self.add(last + "],")

    def buffer(self, data):
        """Adds a buffer in a payload."""
        self.add(f'{{"byteLength": {len(data)}, "uri": "')
        self.parts += [data_uri(data), '"}']

    def whole(self, end):
        """The whole text, which ends so."""
        self.add(end)
        return "".join(self.parts).encode()


def spelled(values, between=", "):
    """Records, spaced as a template on one line, with this between them."""
    return between.join(json.dumps(value, separators=(", ", ":")) for value in values)


def repeated(piece, length):
    return (piece * (length // len(piece) + 1))[:length]


def floats(chance):
    """A thousand floats from 1 to MOST: the first three are the least, the next three the
    greatest."""
    others = [1 + chance.randrange(1024) / 1024 for _ in range(994)]
    return struct.pack("<1000f", *[1] * 3, *[MOST] * 3, *others)


def cube():
    """The bytes of a cube: 24 vertices of position, normal and texture coordinates, 36 indices."""
    half, vertices = 0.4999847412109375, []
    for face in range(6):
        axis, side = face % 3, face // 3
        for v, u in itertools.product((0, 1), repeat=2):
            ends = [(side, u, v)[(k - axis) % 3] for k in range(3)]
            normal = [(k == axis) * (2 * side - 1) for k in range(3)]
            vertices += [*(half if end else -half for end in ends), *normal, u, v]
    corners = [4 * face + corner for face in range(6) for corner in (0, 1, 2, 2, 1, 3)]
    return struct.pack("<192f36H", *vertices, *corners)


def scene(text, cubes):
    """The text of a scene of ten nodes for each cube, up to what its list of buffers holds."""
    records, last = templates("records"), templates("scene")["LAST"]
    looks = min(cubes, 64)
    text.add(records["ASSET"] + '  "scenes": [{"name": "Scene.@d", "nodes": [')
    text.add("@0", range(cubes + 1))
    text.add("]}],")
    text.records("nodes", records["NODES"], cubes, "," + last)
    for name, record, count in (
            ("meshes", "MESH", cubes), ("accessors", "ACCESSORS", cubes),
            ("bufferViews", "VIEWS", cubes), ("materials", "MATERIAL", looks),
            ("textures", "TEXTURE", looks), ("images", "IMAGE", looks)):
        text.records(name, records[record], count)
    text.add(records["SAMPLERS"] + '"buffers": [')
    return text


def scene_container(size):
    text = scene(Text(SEED), size)
    text.add(f'{{"byteLength": {840 * size}}}')
    return container(text.whole("]\n}\n"), cube() * size)


def pretty_scene(size):
    """A scene as an indented text, whose buffer is in a payload."""
    cubes = max(size // 2, 1)
    text = scene(Text(SEED ^ 1, is_pretty=True), cubes)
    text.buffer(cube() * cubes)
    return text.whole("]\n}\n")


def vertex_accessors():
    """The accessors of the character's mesh: indices, vertices, morph targets, and sparse ones."""
    ends = {"min": [1] * 3, "max": [MOST] * 3}
    vertices = [("VEC3", FLOAT, ends), ("VEC3", FLOAT, {}), ("VEC2", FLOAT, {}), ("VEC4", BYTE, {}),
                ("VEC4", SHORT, {"normalized": True}), *[("VEC3", FLOAT, ends)] * 20]
    rows = [(2, SHORT, 3 * VERTICES, "SCALAR", {})]
    rows += [(view, kind, VERTICES, shape, more)
             for view, (shape, kind, more) in enumerate(vertices, 3)]
    rows += [(38, FLOAT, VERTICES, "VEC4", {}), (39, SHORT, VERTICES // 10, "SCALAR", {})]
    accessors = [{"bufferView": view, "componentType": kind, "count": count, "type": shape, **more}
                 for view, kind, count, shape, more in rows]
    places = {"bufferView": 39, "componentType": SHORT}
    accessors[-2:-2] = [
        {"componentType": FLOAT, "type": "VEC3", "count": VERTICES, "min": [0] * 3,
         "max": [MOST] * 3, "sparse": {"count": VERTICES // 10, "indices": places,
                                       "values": {"bufferView": view}}} for view in range(28, 38)]
    return accessors


def view_lengths(animations):
    """How many bytes each view of a character has."""
    keyframes = [12 * KEYS, 16 * KEYS, 12 * KEYS] * (JOINTS * animations)
    of_vertices = [size * VERTICES for size in (6, 12, 12, 8, 4, 8, *[12] * 20)]
    sparse = [12 * VERTICES // 10] * 10
    return [4 * KEYS, 64 * JOINTS, *of_vertices, *sparse, 16 * VERTICES, VERTICES // 5, *keyframes]


def character_bytes(chance, lengths):
    """The bytes of the views of a character."""
    piece = floats(chance)
    given = {
        0: struct.pack(f"<{KEYS}I", *(0x3D00_0000 + k * 0x20_0000 for k in range(KEYS))),
        2: struct.pack(f"<{3 * VERTICES}H", *(k // 2 % VERTICES for k in range(3 * VERTICES))),
        6: bytes(chance.randrange(JOINTS) for _ in range(4 * VERTICES)),
        39: struct.pack(f"<{VERTICES // 10}H", *range(0, VERTICES, 10)),
    }
    return b"".join(given.get(k) or repeated(piece, length) for k, length in enumerate(lengths))


def character(size):
    """200 joints, a mesh with joints, weights and 30 morph targets, and animations of 600 channels
    of 30 keyframes."""
    records, text, animations = templates("character"), Text(SEED ^ 2), size // 100 + 1
    lengths = view_lengths(animations)
    views = [{"buffer": 0, "byteOffset": end - length, "byteLength": length}
             for end, length in zip(itertools.accumulate(lengths), lengths)]
    text.add('{"asset": {"version": "2.0", "generator": "FBX2glTF v0.9.@d"},'
             '"scene": 0, "scenes": [{"nodes": [200, 201]}],')
    others = [{"name": "Armature", "children": list(range(0, JOINTS, 10))},
              {"name": "Body", "mesh": 0, "skin": 0}]
    text.records("nodes", records["TEN_JOINTS"], JOINTS // 10, ", " + spelled(others))
    text.add('"skins": [{"joints": [')
    text.add("@k", range(JOINTS))
    text.add('], "skeleton": 200, "inverseBindMatrices": 1}],' + records["MESH"])
    text.add('{"POSITION": @k}', range(8, 38))
    text.add(']}], "weights": [')
    text.add("0.@d", range(8, 38))
    for k in range(animations):
        text.add('},{"name": "Take.@d",' if k else ']}],"animations": [{"name": "Take.@d",')
        text.records("channels", records["CHANNELS"], JOINTS)
        text.add('"samplers": [')
        text.add(records["SAMPLERS"], range(k * JOINTS, (k + 1) * JOINTS))
        text.add("]")
    text.add(f'}}], "accessors": [{records["TIMES_AND_BINDS"]}, {spelled(vertex_accessors())},')
    text.add(records["KEYFRAMES"], range(animations * JOINTS))
    text.add(f'], "bufferViews": [{spelled(views, ",")}],')
    text.add(f'"buffers": [{{"byteLength": {sum(lengths)}}}')
    return container(text.whole("]}"), character_bytes(text.chance, lengths))


def payload(size):
    """Nearly all of it is a buffer in a payload."""
    text = Text(SEED ^ 3)
    text.add('{"asset": {"version": "2.0", "copyright": "@d @d"}, "buffers": [')
    text.buffer(repeated(floats(text.chance), 1500 * size))
    return text.whole("]}")


def short_elements(size):
    """Elements that are as short as can be."""
    text = Text(SEED ^ 4)
    text.add('{"asset": {"version": "2.0", "copyright": "@d"},')
    text.records("nodes", "{}", 50 * size)
    text.records("materials", "{}", 30 * size)
    text.add('"accessors": [')
    text.add('{"componentType": 5126, "count": 1@d, "type": "SCALAR"}', range(20 * size))
    return text.whole("]}")


def deep_extras(size):
    """Nodes whose extras are lists in lists, a hundred deep."""
    text = Text(SEED ^ 5)
    text.add('{"asset": {"version": "2.0"}, "nodes": [')
    extras = '{"in": [1, ' * 50 + "0.@d" + "]}" * 50
    text.add(f'{{"name": "@d", "extras": {extras}}}', range(size))
    return text.whole("]}")


def of_size(make, divisor):
    """A file of the size that the workload's line names, by a divisor."""
    lines = (TOP / "bench" / "workloads.txt").read_text("utf-8").splitlines()
    size = next(int(words[4]) for words in map(str.split, lines) if words[0] == "open")
    return make(max(size // divisor, 1))


FILES = {name: functools.partial(of_size, make) for name, make in {
    "open_scene.glb": scene_container,
    "open_scene_pretty.gltf": pretty_scene,
    "open_character.glb": character,
    "open_payload.gltf": payload,
    "open_short_elements.gltf": short_elements,
    "open_deep_extras.gltf": deep_extras,
}.items()}

if __name__ == "__main__":
    sys.exit(make_files.main(__doc__, FILES))
