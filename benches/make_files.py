#!/usr/bin/env python3
"""Writes the files that the benchmarks open: `make_files.py FOLDER [--divisor N] [NAME..]`.

The files are the same bytes in each run. With a divisor, each has about so many times fewer
records or bytes. Without names, all of FILES are written."""
import argparse
import base64
import json
import pathlib
import struct
import sys

FLOAT, SHORT, BYTE, INT = 5126, 5123, 5121, 5125
ASSET = '{"version":"2.0"}'
IDENTITY = [1, 0, 0, 0, 0, 1, 0, 0, 0, 0, 1, 0, 0, 0, 0, 1]


def spelled(value, pretty=False):
    how = {"indent": 2} if pretty else {"separators": (",", ":")}
    return json.dumps(value, **how)


def listed(record, count, pretty=False):
    """A list of records in JSON. In each, the text "@" is its number, and an @ in a text too."""
    gap, end = (",\n    ", "\n  ") if pretty else (",", "")
    pieces = spelled(record, pretty).replace("\n", "\n    ").replace('"@"', "@").split("@")
    text = gap.join(str(k).join(pieces) for k in range(count))
    return f"[{gap[1:]}{text}{end}]"


def document(members, pretty=False):
    """A document in JSON, of the texts of its members."""
    gap, colon, end = (",\n  ", ": ", "\n") if pretty else (",", ":", "")
    parts = gap.join(f'"{name}"{colon}{text}' for name, text in {"asset": ASSET, **members}.items())
    return f"{{{gap[1:]}{parts}{end}}}".encode()


def container(text, *blobs):
    text += b" " * (-len(text) % 4)
    size = sum(len(blob) for blob in blobs)
    padding = -size % 4
    parts = [b"glTF", struct.pack("<III", 2, 28 + len(text) + size + padding, len(text)), b"JSON"]
    parts += [text, struct.pack("<I", size + padding), b"BIN\0", *blobs, b"\0" * padding]
    return b"".join(parts)


def data_uri(data):
    """The URI whose payload spells these bytes."""
    return "data:application/octet-stream;base64," + base64.b64encode(data).decode()


def floats(count):
    """So many floats from 0 to 1, the same thousand again and again."""
    piece = struct.pack("<1000f", *(k / 1000 for k in range(1000)))
    return (piece * (count // 1000 + 1))[: 4 * count]


def vectors(count, view=0, **more):
    return {"bufferView": view, "componentType": FLOAT, "count": count, "type": "VEC3", **more}


def over_one_buffer(buffer, views, accessors, **members):
    """The members of a document with one buffer, whose views are pairs of offset and length."""
    views = [{"buffer": 0, "byteOffset": at, "byteLength": size} for at, size in views]
    lists = {"buffers": [buffer], "bufferViews": views, "accessors": accessors, **members}
    return {name: spelled(value) for name, value in lists.items()}


def records(count, pretty=False):
    """So many accessors with bounds, as many views, and as many nodes below one root."""
    bounds = {"min": [-0.5, -0.5, -0.5], "max": [0.5, 0.5, 0.5]}
    node = {"mesh": 0, "name": "node @", "translation": [0.5, 1.25, -3.0],
            "rotation": [0.0, 0.0, 0.0, 1.0]}
    root = {"name": "root", "children": list(range(count))}
    last = spelled(root, pretty).replace("\n", "\n    ")
    nodes = listed(node, count, pretty)
    cut = nodes.rindex("}") + 1
    members = {
        "buffers": listed({"byteLength": 384, "uri": data_uri(bytes(384))}, 1, pretty),
        "bufferViews": listed({"buffer": 0, "byteLength": 384, "byteStride": 12}, count, pretty),
        "accessors": listed(vectors(24, "@", byteOffset=96, **bounds), count, pretty),
        "meshes": listed({"primitives": [{"attributes": {"POSITION": 0}}]}, 1, pretty),
        "nodes": nodes[:cut] + (",\n    " if pretty else ",") + last + nodes[cut:],
        "scenes": listed({"nodes": [count]}, 1, pretty),
    }
    return document(members, pretty)


def many_records(divisor):
    return records(79_000 // divisor)


def pretty_records(divisor):
    return records(79_000 // divisor, pretty=True)


def accessors(divisor):
    """Accessors of a vector each, with a view, a name and extras."""
    count = 50_000 // divisor
    record = vectors(1, "@", name="accessor @", extras={"k": "@"})
    views = [{"buffer": 0, "byteOffset": 12 * k, "byteLength": 12} for k in range(count)]
    members = {"buffers": spelled([{"byteLength": 12 * count}]), "bufferViews": spelled(views),
               "accessors": listed(record, count)}
    return container(document(members), floats(3 * count))


class Blob:
    """The bytes of a buffer, its views and its accessors, as they are added."""

    def __init__(self):
        self.bytes, self.views, self.accessors = bytearray(), [], []

    def view(self, items):
        """The index of a new view of new bytes."""
        self.views.append((len(self.bytes), len(items)))
        self.bytes += items + bytes(-len(items) % 4)
        return len(self.views) - 1

    def over(self, view, count, kind, component=FLOAT, **more):
        """The index of a new accessor over a view."""
        self.accessors.append({"bufferView": view, "componentType": component, "count": count,
                               "type": kind, **more})
        return len(self.accessors) - 1

    def add(self, items, count, kind, component=FLOAT, **more):
        """The index of a new accessor over new bytes."""
        return self.over(self.view(items), count, kind, component, **more)

    def file(self, **members):
        """A container of a document with these accessors and other members."""
        buffer = {"byteLength": len(self.bytes)}
        text = document(over_one_buffer(buffer, self.views, self.accessors, **members))
        return container(text, self.bytes)


def skinned_mesh(blob, count, joint_count, target_count):
    """A mesh of triangles with joints, weights and morph targets."""
    ends = {"min": [0, 0, 0], "max": [1, 1, 1]}
    order = [k % count for k in range(3 * count)]
    joints = bytes(k % joint_count for k in range(4 * count))
    targets = [{"POSITION": blob.add(floats(3 * count), count, "VEC3", **ends),
                "NORMAL": blob.add(floats(3 * count), count, "VEC3")} for _ in range(target_count)]
    attributes = {
        "POSITION": blob.add(floats(3 * count), count, "VEC3", **ends),
        "NORMAL": blob.add(floats(3 * count), count, "VEC3"),
        "TEXCOORD_0": blob.add(floats(2 * count), count, "VEC2"),
        "JOINTS_0": blob.add(joints, count, "VEC4", BYTE),
        "WEIGHTS_0": blob.add(floats(4 * count), count, "VEC4"),
    }
    indices = blob.add(struct.pack(f"<{3 * count}H", *order), 3 * count, "SCALAR", SHORT)
    primitive = {"attributes": attributes, "indices": indices, "targets": targets}
    return {"name": "body", "primitives": [primitive], "weights": [0] * target_count}


def animation(blob, name, joint_count, key_count):
    """Translation, rotation and scale of each joint, over one list of times."""
    times = struct.pack(f"<{key_count}f", *range(key_count))
    times = blob.add(times, key_count, "SCALAR", min=[0], max=[key_count - 1])
    samplers, channels = [], []
    for joint in range(joint_count):
        for path, kind, width in (("translation", "VEC3", 3), ("rotation", "VEC4", 4),
                                  ("scale", "VEC3", 3)):
            values = blob.add(floats(width * key_count), key_count, kind)
            target = {"node": joint, "path": path}
            channels.append({"sampler": len(samplers), "target": target})
            samplers.append({"input": times, "interpolation": "LINEAR", "output": values})
    return {"name": name, "samplers": samplers, "channels": channels}


def character(divisor):
    """200 joints, 60 animations of 600 channels, and a mesh with 8 morph targets."""
    joint_count, blob = 200, Blob()
    joints = [{"name": f"joint {k}", "rotation": [0, 0, 0, 1],
               "children": [it for it in (2 * k + 1, 2 * k + 2) if it < joint_count]}
              for k in range(joint_count)]
    for joint in joints:
        if not joint["children"]:
            del joint["children"]
    mesh = skinned_mesh(blob, 10_000 // divisor, joint_count, 8)
    binds = struct.pack("<16f", *IDENTITY) * joint_count
    skin = {"joints": list(range(joint_count)), "skeleton": 0,
            "inverseBindMatrices": blob.add(binds, joint_count, "MAT4")}
    moves = [animation(blob, f"move {k}", joint_count, 30) for k in range(max(60 // divisor, 1))]
    return blob.file(
        nodes=[*joints, {"mesh": 0, "skin": 0}], scenes=[{"nodes": [0, joint_count]}], scene=0,
        meshes=[mesh], skins=[skin], animations=moves, materials=[{"name": "skin"}])


def large(divisor, **uri):
    """The text of a document with a buffer of 100 MB, and those bytes."""
    blob = floats(24_999_999 // divisor // 3 * 3)
    buffer = {**uri, "byteLength": len(blob)}
    return document(over_one_buffer(buffer, [(0, len(blob))], [vectors(len(blob) // 12)])), blob


def large_container(divisor):
    return container(*large(divisor))


def large_text(divisor):
    return large(divisor, uri="large.bin")[0]


def large_bytes(divisor):
    return large(divisor)[1]


def payload(divisor):
    """A text of 30 MB, nearly all of it a data URI."""
    data = floats(5_625_000 // divisor)
    buffer = {"byteLength": len(data), "uri": data_uri(data)}
    return document(over_one_buffer(buffer, [(0, len(data))], [vectors(len(data) // 12)]))


def sparse(divisor):
    """A million vectors, of which each tenth is replaced."""
    count = 1_000_000 // divisor // 10 * 10
    base, values = floats(3 * count), floats(3 * count // 10)
    indices = struct.pack(f"<{count // 10}I", *range(0, count, 10))
    views = [(0, len(base)), (len(base), len(indices)), (len(base) + len(indices), len(values))]
    part = {"count": count // 10, "indices": {"bufferView": 1, "componentType": INT},
            "values": {"bufferView": 2}}
    blob = base + indices + values
    members = over_one_buffer({"byteLength": len(blob)}, views, [vectors(count, sparse=part)])
    return container(document(members), blob)


def million(member, record, others=()):
    """A file with a million such records, and other members."""
    return lambda divisor: document(
        {**dict(others), member: listed(record, 1_000_000 // divisor)})


FILES = {
    "records.gltf": many_records,
    "records_pretty.gltf": pretty_records,
    "accessors.glb": accessors,
    "character.glb": character,
    "large.glb": large_container,
    "large.gltf": large_text,
    "large.bin": large_bytes,
    "payload.gltf": payload,
    "sparse.glb": sparse,
    "million_materials.gltf": million("materials", {}),
    "million_nodes.gltf": million("nodes", {}),
    "million_accessors.gltf": million(
        "accessors", {"componentType": FLOAT, "count": 1, "type": "SCALAR"}),
    "million_meshes.gltf": million("meshes", {"primitives": [{"attributes": {}}]}),
    "million_animations.gltf": million("animations", {"channels": [], "samplers": []}),
    "million_textures.gltf": million(
        "textures", {"source": 0}, {"images": '[{"uri":"data:,"}]'}),
}


def main(doc, files):
    """Writes those of these files that the command line names."""
    parser = argparse.ArgumentParser(description=doc.splitlines()[0])
    parser.add_argument("folder", type=pathlib.Path)
    parser.add_argument("names", nargs="*", metavar="name", help="one of " + ", ".join(files))
    parser.add_argument("--divisor", type=int, default=1)
    words = parser.parse_args()
    unknown = [name for name in words.names if name not in files]
    if unknown or words.divisor < 1:
        parser.error(f"there is no file {unknown[0]}" if unknown else "a divisor is at least 1")
    words.folder.mkdir(parents=True, exist_ok=True)
    for name in words.names or files:
        (words.folder / name).write_bytes(files[name](words.divisor))


if __name__ == "__main__":
    sys.exit(main(__doc__, FILES))
