#!/usr/bin/env python3
"""Runs the proved programs on many broken files: `make soak [FILES=2000]`.

The files are made from the format's tables and from `examples/`: members are taken away, doubled,
or given other values; containers have wrong lengths; bytes change. Each goes through
`gltf_show inspect --json`, `gltf_show check`, `gltf_repack` and `gltf_convert`. It fails where a
program ends with a status that it does not state, prints no JSON where it is asked for some, says
nothing of a refusal, leaves a file behind, takes more memory or time than docs/ASSURANCE.md states,
or answers another time otherwise. What fails is kept in `out/soak/`.

    soak.py [FILES] [--seed N]    that many files, the same for the same seed
    soak.py [FILES] --peers       and through other loaders of Debian, where they are there: which
                                  files they accept and we refuse, and the other way, by reason

JOBS says how many files are tried at once, as many as there are processors where it is not set.
The last line is `N passed, M failed`."""
import base64
import concurrent.futures
import copy
import json
import os
import pathlib
import random
import re
import struct
import subprocess
import sys
import tempfile

sys.dont_write_bytecode = True

import crates
import peers

OUT = crates.TOP / "out" / "soak"
# What a program takes at most: so many seconds, and so many bytes for a byte of the file beside
# those that it takes for a small one.
SECONDS, FACTOR, BASE = 20, 200, 64 << 20
# Values that stand in the place of another one.
VALUES = [0, 1, 2, 3, 4, 5, -1, 255, 256, 65535, 2**31, 2**32 - 1, 2**32, 2**53 + 1, 2**64 - 1, 2**64,
          0.5, -0.0, 1e308, 5120, 5121, 5122, 5123, 5125, 5126, 34962, 34963, None, True, False, "",
          "VEC3", "SCALAR", "MAT4", "é\n\"", "a" * 300, "data:,", "data:;base64,AAAA", "a.bin", "../a",
          "translation", "rotation", "weights", "pointer", [], {}, [0], [0, 1, 2], [0, 0, 0, 1],
          [[[]]], {"a": {"b": [1]}}, {"POSITION": 0}, {"extras": []}]


def names_of_members():
    """The names of the members of the format, as the tables of records have them."""
    names = set()
    for file in (crates.TOP / "crates").glob("gltf_json*/specs/**/*.antt"):
        names |= set(re.findall(r'codes "([A-Za-z][A-Za-z0-9_]*)"', file.read_text("utf-8")))
    return sorted(names)


# Three positions, three indices, of each vertex its joints and their weights, and of each joint its
# inverse matrix.
DATA = struct.pack("<9f3HH", *range(9), 0, 1, 2, 0) + bytes(12) + struct.pack("<4f", 1, 0, 0, 0) * 3
DATA += struct.pack("<16f", 1, 0, 0, 0, 0, 1, 0, 0, 0, 0, 1, 0, 0, 0, 0, 1) * 2


def whole():
    """A document with nearly every kind of record, and a buffer."""
    return {
        "asset": {"version": "2.0", "generator": "soak"},
        "scene": 0,
        "scenes": [{"nodes": [0]}],
        "nodes": [{"mesh": 0, "children": [1, 2]}, {"camera": 0, "translation": [1, 2, 3]},
                  {"skin": 0, "mesh": 0, "matrix": [1, 0, 0, 0, 0, 1, 0, 0, 0, 0, 1, 0, 0, 0, 0, 1]}],
        "cameras": [{"type": "perspective", "perspective": {"yfov": 1, "znear": 0.1}}],
        "skins": [{"joints": [1, 2], "inverseBindMatrices": 5}],
        "meshes": [{"primitives": [{"attributes": {"POSITION": 0, "JOINTS_0": 3, "WEIGHTS_0": 4},
                                    "indices": 1, "material": 0,
                                    "targets": [{"POSITION": 0}]}], "weights": [0.5]}],
        "materials": [{"pbrMetallicRoughness": {"baseColorTexture": {"index": 0}},
                       "normalTexture": {"index": 0, "scale": 2},
                       "extensions": {"KHR_materials_ior": {"ior": 1.3}}}],
        "textures": [{"source": 0, "sampler": 0}],
        "samplers": [{"magFilter": 9729}],
        "images": [{"uri": "data:image/png;base64,iVBORw0KGgo="}],
        "animations": [{"channels": [{"sampler": 0, "target": {"node": 1, "path": "translation"}}],
                        "samplers": [{"input": 2, "output": 0}]}],
        "accessors": [
            {"bufferView": 0, "componentType": 5126, "count": 3, "type": "VEC3",
             "min": [0, 1, 2], "max": [6, 7, 8]},
            {"bufferView": 1, "componentType": 5123, "count": 3, "type": "SCALAR"},
            {"bufferView": 0, "componentType": 5126, "count": 3, "type": "SCALAR", "min": [0],
             "max": [2], "sparse": {
                 "count": 1, "indices": {"bufferView": 1, "componentType": 5123},
                 "values": {"bufferView": 0}}},
            {"bufferView": 2, "componentType": 5121, "count": 3, "type": "VEC4"},
            {"bufferView": 3, "componentType": 5126, "count": 3, "type": "VEC4"},
            {"bufferView": 4, "componentType": 5126, "count": 2, "type": "MAT4"},
        ],
        "bufferViews": [{"buffer": 0, "byteLength": 36},
                        {"buffer": 0, "byteOffset": 36, "byteLength": 6, "target": 34963},
                        {"buffer": 0, "byteOffset": 44, "byteLength": 12},
                        {"buffer": 0, "byteOffset": 56, "byteLength": 48},
                        {"buffer": 0, "byteOffset": 104, "byteLength": 128}],
        "buffers": [{"byteLength": len(DATA), "uri": "data:application/octet-stream;base64,"
                     + base64.b64encode(DATA).decode()}],
        "extensionsUsed": ["KHR_materials_ior"],
    }


def places(value, found):
    """Every object and list inside a value."""
    pending = [value]
    while pending:
        one = pending.pop()
        if isinstance(one, (dict, list)):
            found.append(one)
            pending += one.values() if isinstance(one, dict) else one
    return found


def change(some, value, names):
    """One change of a document, in place."""
    at = some.choice(places(value, []))
    other = copy.deepcopy(some.choice(VALUES + places(value, [])[:8]))
    if isinstance(at, dict):
        name = some.choice(list(at) or names)
        kind = some.randrange(4)
        if kind == 0:
            at.pop(name, None)
        elif kind == 1:
            at[some.choice(names)] = other
        else:
            at[name] = other
    elif at and some.randrange(3):
        at[some.randrange(len(at))] = other
    elif at and some.randrange(2):
        at.append(copy.deepcopy(some.choice(at)))
    else:
        at.append(other)


def container(text, data, some):
    """A container, whose lengths are wrong now and then."""
    text += b" " * (-len(text) % 4)
    body = struct.pack("<I4s", len(text), b"JSON") + text
    if data is not None:
        data += bytes(-len(data) % 4)
        body += struct.pack("<I4s", len(data), b"BIN\0") + data
    length = 12 + len(body) + (some.choice((-4, 1, 4, 2**20)) if some.randrange(12) == 0 else 0)
    return struct.pack("<4sII", b"glTF", 2, length) + body


def bytes_changed(some, data):
    data = bytearray(data)
    for _ in range(some.randrange(1, 5)):
        at = some.randrange(len(data))
        kind = some.randrange(4)
        if kind == 0:
            data[at] = some.randrange(256)
        elif kind == 1:
            del data[at:at + some.randrange(1, 9)]
        elif kind == 2:
            data[at:at] = bytes(some.randrange(256) for _ in range(some.randrange(1, 5)))
        else:
            data = data[:at]
        if not data:
            return b""
    return bytes(data)


def made(number, seed, names, examples):
    """One file: its ending and its bytes."""
    some = random.Random(seed * 1_000_003 + number)
    if some.randrange(6) == 0:
        file = some.choice(examples)
        return file.suffix, bytes_changed(some, file.read_bytes())
    document = whole()
    for _ in range(some.choice((0, 1, 1, 2, 3, 6))):
        change(some, document, names)
    text = json.dumps(document, ensure_ascii=some.randrange(2) == 0).encode("utf-8", "replace")
    if some.randrange(8) == 0:
        text = bytes_changed(some, text)
    if some.randrange(2):
        return ".gltf", text
    if isinstance(document.get("buffers"), list) and some.randrange(2):
        first = document["buffers"][:1]
        if first and isinstance(first[0], dict):
            first[0].pop("uri", None)
            text = json.dumps(document).encode()
    return ".glb", container(text, some.choice((None, bytes(len(DATA)), DATA)), some)


def ran(words, room):
    """The status, what is printed, and the memory that was taken."""
    with tempfile.TemporaryFile() as out, tempfile.TemporaryFile() as error:
        process = subprocess.Popen(words, cwd=room, stdout=out, stderr=error,
                                   stdin=subprocess.DEVNULL)
        try:
            process.wait(SECONDS)
        except subprocess.TimeoutExpired:
            process.kill()
            process.wait()
            return "no end", b"", b""
        out.seek(0)
        error.seek(0)
        return process.returncode, out.read(), error.read()


def limited(words, size):
    """The call, under a limit of memory: where it is too low the program says so."""
    most = (BASE + FACTOR * size) // 1024
    return ["sh", "-c", f'ulimit -v {most}; exec "$0" "$@"', *words]


def is_report(text):
    try:
        report = json.loads(text)
    except ValueError:
        return False
    return isinstance(report, dict) and "issues" in report


def answer(words, room, size, written):
    """What a call does, and the bytes of the file that it writes."""
    told = ran(limited(words, size), room)
    file = room / written if written else None
    return told, file.read_bytes() if file and file.exists() else None


def faults_of(name, words, statuses, room, size, written=None):
    """What is wrong with a call. One in three is made twice."""
    first = answer(words, room, size, written)
    again = answer(words, room, size, written) if size % 3 == 0 else first
    status, out, error = first[0]
    if status not in statuses:
        return [f"{name}: status {status}: {error[-200:]!r}"]
    if b"out of memory" in error:
        return [f"{name}: more memory than stated"]
    if again != first:
        return [f"{name}: another answer the second time"]
    if "--json" in words and not is_report(out):
        return [f"{name}: no report: {out[:200]!r}"]
    if status != 0 and "inspect" not in words and not error.endswith(b"\n"):
        return [f"{name}: nothing is said of a refusal"]
    left = [file.name for file in room.iterdir() if file.name.endswith(".part")]
    if left:
        return [f"{name}: {left} is left behind"]
    if written is not None and (room / written).exists() != (status == 0):
        return [f"{name}: {written} with status {status}"]
    return []


def tried(number, seed, names, examples):
    ending, data = made(number, seed, names, examples)
    show, repack, convert = (os.fspath(crates.program(name)) for name in crates.PROGRAMS)
    with tempfile.TemporaryDirectory() as room:
        room = pathlib.Path(room)
        file = "file" + ending
        (room / file).write_bytes(data)
        size = len(data)
        faults = faults_of("inspect", [show, "inspect", file, "--json"], (0, 1, 2), room, size)
        faults += faults_of("check", [show, "check", file], (0, 1), room, size)
        packed, one, text = "packed.glb", "one.glb", "text.gltf"
        faults += faults_of("repack", [repack, file, packed], (0, 1), room, size, packed)
        faults += faults_of("convert", [convert, file, one], (0, 1), room, size, one)
        faults += faults_of("to text", [convert, file, text], (0, 1), room, size, text)
        for made_file in (one, text):
            if (room / made_file).exists():
                words = [show, "check", made_file]
                faults += faults_of(f"check of {made_file}", words, (0,), room, 3 * size)
        if faults:
            OUT.mkdir(parents=True, exist_ok=True)
            (OUT / f"{seed}-{number}{ending}").write_bytes(data)
    return number, faults, ending, data


def main():
    words = [word for word in sys.argv[1:] if word != "--peers"]
    seed = int(words[words.index("--seed") + 1]) if "--seed" in words else 1
    count = int(words[0]) if words and words[0].isdigit() else 2000
    names = names_of_members()
    examples = sorted((crates.TOP / "examples").rglob("*.gl*"))
    failed, files = 0, []
    jobs = int(os.environ.get("JOBS", os.cpu_count() or 1))
    with concurrent.futures.ThreadPoolExecutor(jobs) as pool:
        runs = [pool.submit(tried, number, seed, names, examples) for number in range(count)]
        for run in runs:
            number, faults, ending, data = run.result()
            files.append((ending, data))
            failed += bool(faults)
            for fault in faults:
                print(f"file {number}: {fault}")
    if "--peers" in sys.argv:
        peers.by_peers(files, jobs)
    print(f"{count - failed} passed, {failed} failed")
    return 1 if failed else 0


if __name__ == "__main__":
    sys.exit(main())
