#!/usr/bin/env python3
"""Measures the library for C, out/c/libgltf.a, which `make c` builds, and prints tables in Markdown:

  - opening and closing a file, beside cgltf's parse, load_buffers and validate
  - opening a container of 100 MB and reading its items in place, beside cgltf with its copies of
    items
  - each call that fills in a struct

cgltf is that of CGLTF=FOLDER, or as installed; without it nothing is compared. Each number is the
least of some runs, which take turns."""
import argparse
import os
import pathlib
import subprocess
import sys
import tempfile

sys.dont_write_bytecode = True

HERE = pathlib.Path(__file__).resolve().parent
TOP = HERE.parent.parent
sys.path.insert(0, os.fspath(HERE.parent / "peers"))

import peers

# The files, and how many times cgltf's time ours may be: the first two are opened, and the items of
# the last are read too.
BOUNDS = {"accessors.glb": 1.0, "character.glb": 1.0, "large.glb": 0.5}
# Nanoseconds that a call may take.
MOST = 100
RICH = TOP / "out" / "c" / "files" / "rich.glb"


def ran(*words):
    return subprocess.run([str(word) for word in words], check=True, text=True,
                          stdout=subprocess.PIPE).stdout


def compiled(work, name, source, *more):
    program = work / name
    ran("cc", *peers.FLAGS, f"-I{HERE.parent / 'peers'}", source, *more, "-lm", "-o", program)
    return program


def opening(work, path, rounds):
    """The least times of opening, by gltf.h and by cgltf, in seconds."""
    found, _, lacking = peers.programs(work, ["gltf.h", "cgltf"])
    figures = peers.figures_of(path, found, rounds, peers.Items.SUMMED)
    walls = {name: it.of_both(min)[0] for name, it in figures.items()}
    return [walls.get(name) for name in ("gltf.h", "cgltf")], lacking


def reading(work, path, rounds):
    """The same of opening and reading all items."""
    ours = compiled(work, "in_place", HERE / "whole.c", "-DIN_PLACE", peers.LIBRARY)
    try:
        flags, _ = peers.folder_of("cgltf.h", "CGLTF", peers.GET_CGLTF)
        theirs = compiled(work, "copied", HERE / "whole.c", HERE.parent / "peers" / "by_cgltf.c",
                          *flags)
    except peers.NotThere:
        theirs = None
    wrote = [ran(ours, path, rounds).split(),
             ran(theirs, path, rounds).split() if theirs else None]
    if wrote[1] and wrote[0][1] != wrote[1][1]:
        sys.exit(f"{path.name}: the sums of the items differ: {wrote}")
    return [int(it[0]) / 1e9 if it else None for it in wrote]


def row(what, ours, theirs, bound):
    times = [peers.time_text(it) if it else "not measured" for it in (ours, theirs)]
    ratio = f"{ours / theirs:.2f}" if theirs else ""
    print(f"| {what} | {times[0]} | {times[1]} | {ratio} | {bound} |", flush=True)


def main():
    form = argparse.RawDescriptionHelpFormatter
    parser = argparse.ArgumentParser(prog="run.sh", description=__doc__, formatter_class=form)
    parser.add_argument("--rounds", type=int, default=5, help="how many runs there are (5)")
    parser.add_argument("--files", type=pathlib.Path, metavar="FOLDER",
                        help="keeps the files there, and takes those that are there")
    words = parser.parse_args()
    if not peers.LIBRARY.is_file():
        sys.exit("bench: there is no library: make c")
    with tempfile.TemporaryDirectory() as name:
        work = pathlib.Path(name)
        folder = words.files or work
        missing = [name for name in BOUNDS if not (folder / name).is_file()]
        if missing:
            ran(sys.executable, HERE.parent / "make_files.py", folder, *missing)
        print("| | gltf.h | cgltf | ratio | at most |\n|---|---|---|---|---|")
        for file, bound in BOUNDS.items():
            if file == "large.glb":
                row("container of 100 MB: opened, items read", *reading(work, folder / file,
                                                                       words.rounds), bound)
            else:
                times, _ = opening(work, folder / file, words.rounds)
                row(f"{peers.TIMED[file][0]}: opened", *times, bound)
        calls = compiled(work, "calls", HERE / "calls.c", peers.LIBRARY)
        print(f"\n| call | file | records | ns, at most {MOST} |\n|---|---|---|---|")
        for path in (folder / "character.glb", RICH):
            for line in ran(calls, path).splitlines() if path.is_file() else ():
                call, count, time = line.split()
                print(f"| `{call}` | {path.name} | {count} | {time} |")


if __name__ == "__main__":
    main()
