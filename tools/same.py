#!/usr/bin/env python3
"""Makes the same calls of the programs of two checkouts, and compares what they do:
`same.py OLD NEW [COUNT] [--seed N]`.

The files are those of `examples/`, and COUNT that are made of them (1,500), the same for the same
seed: members are taken away, doubled, or given other values; containers have wrong lengths; bytes
change. The calls are those of tools/stack.py: each call of `gltf_show`, `gltf_repack`, and
`gltf_convert` in both directions. The statuses, what is printed, and the files that are written
have to be the same. A file on which they are not is kept in `out/same/`.

A checkout is the folder of a repository in which `make prove` or `rt ci` built the programs. One
that either does not have is named, and its calls are left out. JOBS says how many files are tried
at once, as many as there are processors where it is not set. The last line is `N passed, M failed`,
of calls."""
import argparse
import concurrent.futures
import json
import os
import pathlib
import random
import shutil
import sys
import tempfile

sys.dont_write_bytecode = True

import crates
import soak
import stack

sys.path.append(str(crates.TOP / "c" / "tests"))

import expected

OUT = crates.TOP / "out" / "same"
EXAMPLES = crates.TOP / "examples"


def mutant(some, data, names):
    """The bytes of a file, changed at random."""
    if some.randrange(3) == 0:
        return soak.bytes_changed(some, data)
    document, blob = expected.parts(data)
    for _ in range(some.randrange(1, 5)):
        soak.change(some, document, names)
    text = json.dumps(document, ensure_ascii=some.randrange(2) == 0).encode()
    if some.randrange(8) == 0:
        text = soak.bytes_changed(some, text)
    return text if data[:4] != b"glTF" else soak.container(text, blob, some)


def made(number, seed, examples, names):
    """A file: the example that it is or is made of, and its bytes."""
    if number < len(examples):
        return examples[number], examples[number].read_bytes()
    some = random.Random(seed * 1_000_003 + number)
    file = some.choice([it for it in examples if it.suffix in (".glb", ".gltf")])
    return file, mutant(some, file.read_bytes(), names)


def answer(top, call, file, room):
    """What a call does: its status, what is printed, and the files that it writes."""
    program, *words = call
    before = set(room.iterdir())
    words = [file if word == "FILE" else word for word in words]
    status, out, error = soak.ran([crates.program(program, top), *words], room)
    written = {path.name: path.read_bytes() for path in set(room.iterdir()) - before}
    for name in written:
        (room / name).unlink()
    return {"status": status, "stdout": out, "stderr": error, **written}


def differing(number, words, calls):
    """The calls whose answers differ on a file, with what differs. It stands beside the other files
    of its example."""
    file, data = made(number, words.seed, words.examples, words.names)
    faults = []
    with tempfile.TemporaryDirectory() as room:
        room = pathlib.Path(room)
        for other in file.parent.iterdir():
            if other.is_file():
                shutil.copy(other, room)
        (room / file.name).write_bytes(data)
        for name, call in calls.items():
            old, new = (answer(top, call, file.name, room) for top in (words.old, words.new))
            names = sorted(it for it in {*old, *new} if old.get(it) != new.get(it))
            if names:
                faults.append(f"{name}: {', '.join(names)}")
    if faults:
        OUT.mkdir(parents=True, exist_ok=True)
        (OUT / f"{words.seed}-{number}{file.suffix}").write_bytes(data)
    return [f"file {number}, of {file.name}: {fault} differ" for fault in faults]


def in_both(tops):
    """The calls whose programs both checkouts have."""
    missing = [file for name in crates.PROGRAMS for top in tops
               if not (file := crates.program(name, top)).is_file()]
    for file in missing:
        print(f"same.py: there is no {file}: its calls are left out", file=sys.stderr)
    left_out = {file.name for file in missing}
    return {name: call for name, call in stack.CALLS.items() if call[0] not in left_out}


def parsed():
    form = argparse.RawDescriptionHelpFormatter
    parser = argparse.ArgumentParser(description=__doc__, formatter_class=form)
    parser.add_argument("old", type=pathlib.Path)
    parser.add_argument("new", type=pathlib.Path)
    parser.add_argument("count", type=int, nargs="?", default=1500)
    parser.add_argument("--seed", type=int, default=1)
    words = parser.parse_args()
    words.old, words.new = words.old.resolve(), words.new.resolve()
    words.examples = sorted(path for path in EXAMPLES.rglob("*") if path.is_file())
    words.names = soak.names_of_members()
    return words


def main():
    words = parsed()
    calls = in_both((words.old, words.new))
    if not calls:
        return 2
    failed, count = 0, len(words.examples) + words.count
    jobs = int(os.environ.get("JOBS", os.cpu_count() or 1))
    with concurrent.futures.ThreadPoolExecutor(jobs) as pool:
        for faults in pool.map(lambda number: differing(number, words, calls), range(count)):
            failed += len(faults)
            for fault in faults:
                print(fault)
    print(f"{count} files, {len(calls)} calls of each compared")
    print(f"{count * len(calls) - failed} passed, {failed} failed")
    return 1 if failed else 0


if __name__ == "__main__":
    sys.exit(main())
