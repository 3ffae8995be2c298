#!/usr/bin/env python3
"""Measures the proved program `gltf_convert` on a document with four buffers of 25 MB, each in a
file of its own, and prints a table in Markdown.

It is converted to one container, and that back to a text with its file. Each is timed in turns with
a copy: a process that reads the same files and writes them anew, piece by piece, each by way of a
file that is kept on the disk and then takes its name, as the program does. A figure is the least of
all runs. The memory is the most that the process had, by the bytes of the files that are read.

    convert.py [--program FILE] [--folder FOLDER] [--runs N] [--divisor N] [--quick]

The files are made in the folder, and removed; without one, in a folder for temporary files, which
may be in memory. Exit status: 0; 1 where a figure is above its bound, or the program fails."""
import argparse
import json
import os
import pathlib
import subprocess
import sys
import tempfile
import time

# What can be had: at most so many times the time of the copy, by what is written, and so many times
# the bytes. docs/BENCHMARKS.md says why the time is no less.
TIMES = {"one.glb": 3.0, "two.gltf": 2.4}
MEMORY = 2.2
BUFFERS, BYTES = 4, 25_000_000
PIECE = 1 << 20
TOP = pathlib.Path(__file__).resolve().parent.parent.parent
# What the copy runs: the names of what it reads stand before those of what it writes. A name that
# is written alone gets the bytes of all, in order.
COPY = """
import os, sys
count = int(sys.argv[1])
sources, names = sys.argv[2 : 2 + count], sys.argv[2 + count :]
groups = [sources] if len(names) == 1 else [[source] for source in sources]
for name, group in zip(names, groups, strict=True):
    with open(name + ".part", "wb") as new:
        for source in group:
            with open(source, "rb") as old:
                while piece := old.read(1 << 20):
                    new.write(piece)
        new.flush()
        os.fsync(new.fileno())
for name in names:
    os.rename(name + ".part", name)
"""


def write(folder, divisor):
    """The document and its buffers, piece by piece: a child counts the most memory of its parent,
    which is this process, as its own."""
    size = BYTES // divisor // 12 * 12
    for k in range(BUFFERS):
        with open(folder / f"b{k}.bin", "wb") as file:
            left = size
            while left:
                piece = min(left, PIECE // 12 * 12)
                file.write(bytes([k + 1]) * piece)
                left -= piece
    count = size // 12
    views = [{"buffer": k, "byteLength": size} for k in range(BUFFERS)]
    accessors = [{"bufferView": k, "componentType": 5126, "count": count, "type": "VEC3"}
                 for k in range(BUFFERS)]
    text = {"asset": {"version": "2.0"}, "bufferViews": views, "accessors": accessors,
            "buffers": [{"byteLength": size, "uri": f"b{k}.bin"} for k in range(BUFFERS)]}
    (folder / "in.gltf").write_text(json.dumps(text), "utf-8")
    return ["in.gltf", *(f"b{k}.bin" for k in range(BUFFERS))]


def ran(words, folder):
    """The seconds that a process takes, and the most memory that it had in bytes."""
    start = time.perf_counter()
    with subprocess.Popen(words, cwd=folder, stdout=subprocess.DEVNULL) as process:
        _, status, usage = os.wait4(process.pid, 0)
        process.returncode = os.waitstatus_to_exitcode(status)
    took = time.perf_counter() - start
    if process.returncode:
        sys.exit(f"convert: {words[0]} ends with {process.returncode}")
    return took, usage.ru_maxrss * 1024


def measured(program, folder, source, target, read, written, runs):
    """The least time of the program and of the copy, in turns, and the program's most memory."""
    copied = [f"copy_{name}" for name in written]
    copy = [sys.executable, "-c", COPY, str(len(read)), *read, *copied]
    times, memory = [[], []], 0
    for _ in range(runs):
        took, most = ran([program, source, target], folder)
        times[0].append(took)
        memory = max(memory, most)
        times[1].append(ran(copy, folder)[0])
    for name in copied:
        (folder / name).unlink()
    return min(times[0]), min(times[1]), memory


def main():
    options = argparse.ArgumentParser(description=__doc__,
                                      formatter_class=argparse.RawDescriptionHelpFormatter)
    options.add_argument("--program", default=TOP / "crates/gltf_convert/out/gltf_convert")
    options.add_argument("--folder")
    options.add_argument("--runs", type=int, default=7)
    options.add_argument("--divisor", type=int, default=1)
    options.add_argument("--quick", action="store_true", help="a hundredth of the bytes, once")
    given = options.parse_args()
    runs, divisor = (1, 100) if given.quick else (given.runs, given.divisor)
    program = os.path.abspath(given.program)
    if not os.access(program, os.X_OK):
        sys.exit(f"convert: there is no program {program}: make prove builds it")
    missed = False
    with tempfile.TemporaryDirectory(dir=given.folder) as name:
        folder = pathlib.Path(name)
        read = write(folder, divisor)
        # The set has one buffer, that of the container.
        turns = [("to one container", "in.gltf", "one.glb", read, ["one.glb"]),
                 ("to a text with its file", "one.glb", "two.gltf", ["one.glb"], ["two.bin"])]
        print("| conversion | bytes | time | copy | ratio | memory by bytes |")
        print("|---|---|---|---|---|---|")
        for what, source, target, sources, written in turns:
            size = sum((folder / one).stat().st_size for one in sources)
            took, copied, memory = measured(program, folder, source, target, sources, written, runs)
            print(f"| {what} | {size:,} | {took:.3f} s | {copied:.3f} s | {took / copied:.2f} "
                  f"| {memory / size:.2f} |")
            missed = missed or took > TIMES[target] * copied or memory > MEMORY * size
    said = "missed" if missed else "kept"
    times = " and ".join(map(str, TIMES.values()))
    print(f"bounds: {times} times the copy, {MEMORY} times the bytes: {said}", file=sys.stderr)
    return 1 if missed and not given.quick else 0


if __name__ == "__main__":
    sys.exit(main())
