#!/usr/bin/env python3
"""Runs the proved program `gltf_show inspect --json` on documents whose accessors have bytes in
common: which items are not looked at, by the budget that docs/INSPECT.md has, and how long it takes
beside `gltf_show check`; and how long on documents with many attributes and targets. `make test`
calls it after `rt ci`; arguments are another program to run. The last line is
`N passed, M failed`."""
import json
import math
import os
import pathlib
import struct
import subprocess
import sys
import tempfile

sys.dont_write_bytecode = True

import crates

# For each byte of the file and of its buffers so many bytes of items.
SHARE = 8
CODE = "ACCESSOR_ITEMS_NOT_LOOKED_AT"
U8, U16, U32, FLOAT = 5121, 5123, 5125, 5126
SIZES = {U8: 1, U16: 2, U32: 4, FLOAT: 4}
SHAPES = {"SCALAR": 1, "VEC3": 3, "VEC4": 4, "MAT4": 16}
# How often the time of `check` that of `inspect` may be, where a stranger made the file.
MOST = 20


def accessor(count, offset=0, component=U8, shape="SCALAR", **members):
    return {"bufferView": 0, "byteOffset": offset, "componentType": component, "type": shape,
            "count": count, **members}


def container(accessors, blob, **members):
    """A container with one buffer, one view of all of it, and these accessors."""
    blob += b"\0" * (-len(blob) % 4)
    document = {"asset": {"version": "2.0"}, "buffers": [{"byteLength": len(blob)}],
                "bufferViews": [{"buffer": 0, "byteLength": len(blob)}], "accessors": accessors,
                **members}
    text = json.dumps(document, separators=(",", ":")).encode()
    text += b" " * (-len(text) % 4)
    return (struct.pack("<4sIIII", b"glTF", 2, 28 + len(text) + len(blob), len(text), 0x4E4F534A)
            + text + struct.pack("<II", len(blob), 0x004E4942) + blob), len(blob)


def price(it, room):
    """How many bytes the items of an accessor take, where there is room for them in the view."""
    size = SIZES[it["componentType"]] * SHAPES[it["type"]]
    own = it["count"] * size if it["count"] * size <= room else 0
    if "sparse" not in it:
        return own
    many, stored = it["sparse"]["count"], SIZES[it["sparse"]["indices"]["componentType"]]
    return own + sum(many * each for each in (stored, size) if many * each <= room)


def left_out(accessors, budget, room):
    """The accessors that are left out."""
    firsts, marks = {}, []
    for i, it in enumerate(accessors):
        same = i if "sparse" in it else tuple(it[name] for name in (
            "byteOffset", "componentType", "type", "count"))
        if same in firsts:
            marks.append(marks[firsts[same]])
            continue
        firsts[same] = i
        marks.append(price(it, room) > budget)
        budget -= 0 if marks[-1] else price(it, room)
    return [i for i, mark in enumerate(marks) if mark]


def to_the_last_byte(more):
    """Accessors that take the budget to its last byte, but for the last one, which takes so many
    bytes more than what is left."""
    blob, plain = bytes(99996), [accessor(90000, offset) for offset in range(1)]
    made, room = container([*plain, accessor(10000, 30)], blob)
    budget = SHARE * (len(made) + room)
    while sum(price(it, room) for it in plain) + 99999 < budget:
        plain.append(accessor(90000, len(plain)))
        made, room = container([*plain, accessor(10000, 30)], blob)
        budget = SHARE * (len(made) + room)
    left = budget - sum(price(it, room) for it in plain)
    return [*plain, accessor(left + more, 30)], blob


def rows():
    """Documents, each with its name: accessors, the bytes of the buffer, and other members."""
    yield "the last byte", *to_the_last_byte(0), {}
    yield "a byte more", *to_the_last_byte(1), {}
    many = bytes(1000000)
    yield "one range", [
        accessor(1000000, component=U8, min=[0], max=[0]) for _ in range(400)], many, {}
    yield "one range of floats with bounds", [
        accessor(250000, component=FLOAT, min=[0], max=[0]) for _ in range(400)], many, {}
    yield "many ranges", [accessor(4000000, offset, min=[0], max=[0]) for offset in range(20000)], \
        bytes(5000000), {}
    yield "many ranges of indices", [accessor(999000, 2 * offset, U8) for offset in range(500)], \
        many, {"meshes": [{"primitives": [{"attributes": {}, "indices": i} for i in range(500)]}]}
    yield "many ranges of times", [
        accessor(249000, 4 * offset, FLOAT) for offset in range(500)], many, {
            "nodes": [{}], "animations": [{
                "channels": [{"sampler": i, "target": {"node": 0, "path": "rotation"}}
                             for i in range(500)],
                "samplers": [{"input": i, "output": i} for i in range(500)]}]}
    yield "indices that all primitives share", [accessor(1000000)], many, {
        "meshes": [{"primitives": [{"attributes": {}, "indices": 0} for _ in range(20000)]}]}
    yield "times that all samplers share", [accessor(250000, component=FLOAT)], many, {
        "nodes": [{}], "animations": [{
            "channels": [{"sampler": i, "target": {"node": 0, "path": "rotation"}}
                         for i in range(20000)],
            "samplers": [{"input": 0, "output": 0} for _ in range(20000)]}]}
    sparse = {"count": 1000, "indices": {"bufferView": 0, "componentType": U32},
              "values": {"bufferView": 0}}
    yield "sparse accessors", [
        accessor(100000, offset, sparse=sparse) for offset in range(2000)], many, {}
    yield "small ones", [accessor(256, component=FLOAT, shape="MAT4") for _ in range(20000)], many, {}
    yield "few items", [accessor(16, component=FLOAT, shape="MAT4") for _ in range(20000)], many, {}
    yield "no room", [accessor(2000000) for _ in range(20000)], many, {}
    # The first has the positions; the application's attributes stand before it in their order.
    two = [accessor(3, component=FLOAT, shape="VEC3"), accessor(4, component=FLOAT, shape="VEC3")]
    own = {f"_A{i}": 1 for i in range(16000)}
    yield "attributes of unequal counts", two, many, {
        "meshes": [{"primitives": [{"attributes": {"POSITION": 0, **own}}]}]}
    yield "targets beside attributes", two, many, {
        "meshes": [{"primitives": [{"attributes": {"POSITION": 0, **own},
                                    "targets": [{"POSITION": 0}] * 16000}]}]}


def one_file(folder):
    """A document of many buffers that name one file of so many bytes, each with an accessor over it
    that begins at another byte: its path, its accessors and how many bytes there are in all."""
    many, size = 2000, 1000000
    (folder / "a.bin").write_bytes(bytes(size))
    accessors = [accessor(size - i, i, component=U8, min=[0], max=[0], bufferView=i)
                 for i in range(many)]
    text = json.dumps({
        "asset": {"version": "2.0"},
        "buffers": [{"byteLength": size, "uri": "a.bin"} for _ in range(many)],
        "bufferViews": [{"buffer": i, "byteLength": size} for i in range(many)],
        "accessors": accessors}).encode()
    path = folder / "in.gltf"
    path.write_bytes(text)
    return path, accessors, len(text) + size, size


def taken(words):
    """The seconds of the processor that a call takes, and what it writes."""
    before = os.times()
    ran = subprocess.run(words, capture_output=True, text=True)
    after = os.times()
    seconds = (after.children_user + after.children_system
               - before.children_user - before.children_system)
    return seconds, ran.stdout


def found(report):
    return [int(it["pointer"].split("/")[2]) for it in json.loads(report)["issues"]["messages"]
            if it["code"] == CODE]


def least_taken(words, enough):
    """The least seconds of three calls, since what runs beside one makes it dearer; of fewer where
    one took no more than enough. And what the last one wrote."""
    least = math.inf
    for _ in range(3):
        seconds, written = taken(words)
        least = min(least, seconds)
        if least <= enough:
            break
    return least, written


def wrong_of(program, path, accessors, size, room):
    """What is wrong with the calls on a file of these accessors, which has so many bytes with its
    buffers."""
    check, _ = least_taken([*program, "check", path], 0)
    most = MOST * max(check, 0.01)
    seconds, report = least_taken([*program, "inspect", "--json", path], most)
    expected, out = left_out(accessors, SHARE * size, room), found(report)
    if out != expected:
        yield f"expected {len(expected)} left out, found {len(out)}"
    if seconds > most:
        yield f"expected at most {most:.2f} s of inspect, taken {seconds:.2f} s"


def files(folder):
    """The documents in files, each with its name."""
    path = folder / "in.glb"
    for name, accessors, blob, members in rows():
        made, room = container(accessors, blob, **members)
        path.write_bytes(made)
        yield name, path, accessors, len(made) + room, room
    yield "many buffers of one file", *one_file(folder)


def main():
    program = sys.argv[1:] or [crates.program("gltf_show")]
    passed = failed = 0
    with tempfile.TemporaryDirectory() as folder:
        for name, *file in files(pathlib.Path(folder)):
            wrong = list(wrong_of(program, *file))
            passed, failed = passed + (not wrong), failed + bool(wrong)
            for line in wrong:
                print(f"{name}: {line}")
    print(f"{passed} passed, {failed} failed")
    return 1 if failed else 0


if __name__ == "__main__":
    sys.exit(main())
