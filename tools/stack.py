#!/usr/bin/env python3
"""Measures the stack that the programs and the calls of the library for C take, on files that go as
deep as the format lets them: 126 levels of JSON in many places, 127 levels and a fault of a record
before or behind them, a chain of 100,000 nodes, lists of 100,000 elements, 200,000 broken rules.

    stack.py             each program gives the same answer with PROGRAM KiB of stack as with 8 MiB,
                         and all calls of the library are made in threads of THREAD KiB
    stack.py --measure   the least stack of each call of a program on each file, to 4 KiB, and of
                         the library what each thread touched: tables in Markdown

The programs are those that `rt ci` leaves, the library that of `make c`. The last line is
`N passed, M failed`."""
import json
import os
import pathlib
import resource
import subprocess
import sys
import tempfile

sys.dont_write_bytecode = True

import c
import c_tests
import crates

# The KiB of stack that a program has here, and a thread that makes calls of the library.
PROGRAM, THREAD, ENOUGH, STEP = 256, 256, 8192, 4
CHAIN = 100_000
CALLS = {
    "check": ("gltf_show", "check", "FILE"),
    "chunks": ("gltf_show", "chunks", "FILE"),
    "indices": ("gltf_show", "indices", "FILE", "0", "0"),
    "inspect": ("gltf_show", "inspect", "FILE"),
    "inspect --json": ("gltf_show", "inspect", "FILE", "--json"),
    "inspect --html": ("gltf_show", "inspect", "FILE", "--html"),
    "gltf_repack": ("gltf_repack", "FILE", "out.glb"),
    "gltf_convert to .glb": ("gltf_convert", "FILE", "out.glb"),
    "gltf_convert to .gltf": ("gltf_convert", "FILE", "out.gltf"),
}


def nested(levels, is_list):
    """A text with so many levels of lists or of objects."""
    return "[" * levels + "]" * levels if is_list else '{"a":' * levels + "0" + "}" * levels


def deep(is_list):
    """A document with 126 levels of JSON wherever a record keeps what an application stores."""
    def room(level):
        return nested(126 - level, is_list)

    def kept(level):
        return f'"extras":{room(level)},"extensions":{{"EXT_mark":{room(level + 1)}}}'
    records = ",".join(f'"{name}":[{{{more}{kept(3)}}}]' for name, more in {
        "nodes": "", "cameras": '"type":"perspective","perspective":{"yfov":1,"znear":1},',
        "materials": "", "samplers": "", "scenes": "",
        "images": '"uri":"data:image/png;base64,iVBORw0KGgo=",',
        "buffers": '"byteLength":1,"uri":"data:;base64,AA==",',
        "bufferViews": '"buffer":0,"byteLength":1,',
        "accessors": '"bufferView":0,"componentType":5121,"count":1,"type":"SCALAR",',
        "skins": '"joints":[0],'}.items())
    mesh = f'"meshes":[{{"primitives":[{{"attributes":{{}},"indices":0,{kept(5)}}}],{kept(3)}}}]'
    return f'{{"asset":{{"version":"2.0",{kept(2)}}},{records},{mesh},{kept(1)}}}'


def faulty(is_before):
    """A text as deep as is accepted, 127 levels, in extras and in an extension that nobody knows,
    and a fault of a record before these or behind them."""
    values = [f'"extras":{nested(126, True)},"extensions":{{"EXT_mark":{nested(125, False)}}}']
    fault = ['"nodes":[{"mesh":"0"}]']
    members = fault + values if is_before else values + fault
    return f'{{"asset":{{"version":"2.0"}},{",".join(members)}}}'


def document(**members):
    return json.dumps({"asset": {"version": "2.0"}, **members}, separators=(",", ":"))


def chain(**last):
    """A chain of nodes, each the child of the one before it."""
    nodes = [{"children": [at + 1]} for at in range(CHAIN - 1)]
    return document(nodes=[*nodes, last], scenes=[{"nodes": [0]}], scene=0)


def texts():
    """The files, by their names."""
    return {
        "deep_lists": deep(True),
        "deep_objects": deep(False),
        "fault_before_deep": faulty(True),
        "fault_behind_deep": faulty(False),
        "too_deep": f'{{"asset":{{"version":"2.0"}},"extras":{nested(200_000, True)}}}',
        "chain": chain(),
        "loop": chain(children=[0]),
        "broken": document(nodes=[{"mesh": 3}] * 200_000),
        "broken_in_chain": chain(mesh=7),
        "children": document(nodes=[{"children": list(range(1, CHAIN))}, *[{}] * (CHAIN - 1)]),
        "joints": document(nodes=[{}] * CHAIN, skins=[{"joints": list(range(CHAIN))}]),
    }


def files(room):
    """The files in a folder, and some small ones that have nearly every kind of record."""
    for name, text in texts().items():
        (room / f"{name}.gltf").write_text(text)
    subprocess.run([sys.executable, c_tests.TESTS_OF_C / "rich.py", room], check=True)
    rest = [room / "rich.glb", room / "valid.glb", c_tests.BOX]
    return [*(room / f"{name}.gltf" for name in texts()), *rest]


def ran(call, file, room, kib):
    """The status and the output of a call with so much stack, and the files that it wrote."""
    name, *words = call
    words = [os.fspath(file) if word == "FILE" else word for word in words]
    limit = (kib * 1024, kib * 1024)
    how = {"preexec_fn": lambda: resource.setrlimit(resource.RLIMIT_STACK, limit), "env": {},
           "capture_output": True, "cwd": room, "timeout": 120}
    done = subprocess.run([crates.program(name), *words], **how)
    written = {out.name: out.read_bytes() for out in room.glob("out*")}
    for out in written:
        (room / out).unlink()
    return done.returncode, done.stdout, done.stderr, written


def least(call, file, room):
    """The least KiB with which a call has the answer that it has with enough; and its status."""
    wanted = ran(call, file, room, ENOUGH)
    low, high = 0, PROGRAM if ran(call, file, room, PROGRAM) == wanted else ENOUGH
    while high - low > STEP:
        middle = (low + high) // 2 // STEP * STEP
        if ran(call, file, room, middle) == wanted:
            high = middle
        else:
            low = middle
    return high, wanted[0]


def measured(room):
    """Prints the table of the programs. A status other than 0 follows the number."""
    print("| KiB of stack | " + " | ".join(CALLS) + " |")
    print("|---" * (len(CALLS) + 1) + "|")
    made = files(room)
    for file in made:
        found = [least(call, file, room) for call in CALLS.values()]
        cells = [f"{kib}" if status == 0 else f"{kib} ({status})" for kib, status in found]
        print(f"| {file.name} | " + " | ".join(cells) + " |", flush=True)
    print(of_library(room, made)[1])


def of_library(room, made):
    """Whether all calls of the library are made in small threads; and what they took."""
    program = room / "stack"
    c_tests.compiled(c_tests.TESTS_OF_C / "stack.c", program, "-pthread", language="c99")
    words = [program, str(THREAD), *made, c_tests.RIG, c_tests.SURFACE]
    done = subprocess.run(words, capture_output=True, text=True, cwd=room)
    text = done.stdout.replace(f"{room}/", "").replace(f"{crates.TOP}/", "")
    return done.returncode == 0, text + done.stderr + (
        "" if done.returncode == 0 else f"ended with {done.returncode}\n")


def tried(room):
    """Each call of each program, and the calls of the library: what failed."""
    results, made = [], files(room)
    for file in made:
        for name, call in CALLS.items():
            few, many = (ran(call, file, room, kib) for kib in (PROGRAM, ENOUGH))
            good = few == many and many[0] in (0, 1, 2)
            results.append(good)
            if not good:
                print(f"{name} {file.name}: FAILED: {few[0]} {few[2][-200:]!r} with {PROGRAM} KiB "
                      f"and {many[0]} {many[2][-200:]!r} with {ENOUGH}")
    lacks = False, "there is no out/c/libgltf.a\n"
    good, text = of_library(room, made) if c.LIBRARY.exists() else lacks
    print(text, end="")
    results.append(good)
    return results


def main():
    with tempfile.TemporaryDirectory() as room:
        room = pathlib.Path(room)
        if sys.argv[1:] == ["--measure"]:
            measured(room)
            return 0
        results = tried(room)
    print(f"{results.count(True)} passed, {results.count(False)} failed")
    return 1 if False in results else 0


if __name__ == "__main__":
    sys.exit(main())
