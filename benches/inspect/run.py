#!/usr/bin/env python3
"""Measures `gltf_show inspect` beside `gltf_show check`, on files of a million nodes and a hundred
megabytes of vertices. Prints a table in Markdown.

The times are the processor's, of whole processes: the least and the greatest of some runs, which
alternate between the calls. The memory is the most that a process had. The factors are those of
`inspect` by `check`, of the least times and of the memory.

Exit status: 0; 1 where a call does not end as it has to."""
import argparse
import multiprocessing
import pathlib
import subprocess
import sys
import tempfile

HERE = pathlib.Path(__file__).resolve().parent
sys.dont_write_bytecode = True
sys.path[:0] = [str(HERE.parent), str(HERE.parent.parent / "tools")]

import crates
from make_files import FLOAT, container, document, floats, over_one_buffer, spelled
from processes import ended

CALLS = {"check": ["check"], "inspect": ["inspect"], "inspect --json": ["inspect", "--json"]}
BOUNDS = {"min": [0, 0, 0], "max": [0.999, 0.999, 0.999]}


def vertices(divisor):
    """A mesh of triangles, of so many vertices that they are 100 MB."""
    count = 8_333_333 // divisor // 3 * 3
    blob = floats(3 * count)
    position = {"bufferView": 0, "componentType": FLOAT, "count": count, "type": "VEC3", **BOUNDS}
    members = over_one_buffer(
        {"byteLength": len(blob)}, [], [position],
        meshes=[{"primitives": [{"attributes": {"POSITION": 0}}]}])
    members["bufferViews"] = spelled(
        [{"buffer": 0, "byteLength": len(blob), "target": 34962}])
    return members, blob


def written(path, nodes, divisor, **others):
    """A container of those vertices, below nodes that are given as texts of JSON."""
    members, blob = vertices(divisor)
    members["nodes"] = "[" + ",".join(nodes) + "]"
    members |= {"scenes": '[{"nodes":[0]}]', "scene": "0", **others}
    path.write_bytes(container(document(members), blob))


def wide(path, divisor):
    """Each node has up to ten children."""
    count = 1_000_000 // divisor
    nodes = []
    for k in range(count):
        below = [it for it in range(10 * k + 1, 10 * k + 11) if it < count]
        nodes.append(spelled({"children": below} if below else {"mesh": 0}))
    written(path, nodes, divisor)


def deep(path, divisor):
    """Each node has one child, and skins have skeletons and joints at many depths."""
    count = 1_000_000 // divisor
    nodes = [f'{{"children":[{k + 1}]}}' for k in range(count - 1)] + ['{"mesh":0}']
    at = [k * (count - 1) // 1000 for k in range(1001)]
    skins = [{"joints": [at[k + 1], count - 1][:1 + (k < 999)], "skeleton": at[k]}
             for k in range(1000)]
    written(path, nodes, divisor, skins=spelled(skins))


FILES = {"a tree of ten children each": wide, "a chain, and 1,000 skins": deep}


def ran(program, words, path):
    """The processor time in seconds, the most memory in bytes, and the last line of a call."""
    with subprocess.Popen([program, *words, path], stdout=subprocess.PIPE) as process:
        out = process.stdout.read()
        seconds, memory = ended(process)
    if process.returncode:
        print(f"inspect: {words} ends with {process.returncode}: {out[:300]!r}", file=sys.stderr)
        sys.exit(1)
    return seconds, memory


def row(program, name, path, runs):
    """The line of a file."""
    found = {call: [] for call in CALLS}
    for _ in range(runs):
        for call, words in CALLS.items():
            found[call].append(ran(program, words, path))
    times = {call: [time for time, _ in them] for call, them in found.items()}
    memory = {call: max(most for _, most in them) for call, them in found.items()}
    cells = [name, f"{path.stat().st_size / 1e6:.0f} MB"]
    for call in CALLS:
        least, most = min(times[call]), max(times[call])
        cells.append(f"{least:.2f} to {most:.2f} s, {memory[call] / 1e6:.0f} MB")
    for call in list(CALLS)[1:]:
        cells.append(f"{min(times[call]) / min(times['check']):.2f}, "
                     f"{memory[call] / memory['check']:.2f}")
    return "| " + " | ".join(cells) + " |"


def main():
    parser = argparse.ArgumentParser(description=__doc__.splitlines()[0])
    parser.add_argument("--program", default=crates.program("gltf_show"))
    parser.add_argument("--runs", type=int, default=3)
    parser.add_argument("--divisor", type=int, default=1, help="files so many times smaller")
    words = parser.parse_args()
    head = ["", "file", *CALLS, *(f"{call}: time, memory" for call in list(CALLS)[1:])]
    print("| " + " | ".join(head) + " |\n" + "|---" * len(head) + "|")
    with tempfile.TemporaryDirectory() as folder:
        for name, make in FILES.items():
            path = pathlib.Path(folder) / "file.glb"
            # In a process of its own: a child counts the most memory of its parent as its own.
            maker = multiprocessing.Process(target=make, args=(path, words.divisor))
            maker.start()
            maker.join()
            print(row(words.program, name, path, words.runs), flush=True)


if __name__ == "__main__":
    main()
