#!/usr/bin/env python3
"""Runs the programs with too little memory, after `rt ci`.

- Each call on small files, once, and once for each growth of memory, with that growth refused: it
  gives its own answer, or says that memory ran out.
- Each call with as much address space as it needs and a tenth more, where it gives its own answer;
  and with less, in steps from what a program needs to say how it is used: there it gives its own
  answer, or says that memory ran out.

Where a call says so, its status is that of a call that cannot do its work, the file that it was to
write is what it was before, and no other file is left behind: of several files, none is written.

    memory.py           the growths of the files of `examples/`, and the limits
    memory.py --long    also those of files with nearly every kind of record, and finer steps

The last line is `N passed, M failed`: a row is a call on a file."""
import concurrent.futures
import os
import pathlib
import resource
import subprocess
import sys
import tempfile

sys.dont_write_bytecode = True

import crates
import preload
from programs import document

# The files that are written, if the call writes some, and what they are before.
BEFORE = {"out.glb": b"what was there before", "out.gltf": b"the text that was there before"}
PAGE = 4096
# The words of each call, and its status where it cannot do its work.
CALLS = {
    "chunks": ("gltf_show", ["chunks", "IN"], 1),
    "check": ("gltf_show", ["check", "IN"], 1),
    "indices": ("gltf_show", ["indices", "IN", "0", "0"], 1),
    "inspect": ("gltf_show", ["inspect", "IN"], 2),
    "inspect --json": ("gltf_show", ["inspect", "IN", "--json"], 2),
    "inspect --html": ("gltf_show", ["inspect", "IN", "--html"], 2),
    "gltf_repack": ("gltf_repack", ["IN", "out.glb"], 1),
    "gltf_convert to .glb": ("gltf_convert", ["IN", "out.glb"], 1),
    "gltf_convert to .gltf": ("gltf_convert", ["IN", "out.gltf"], 1),
}
# How `main` ends where there is no memory for the words themselves: with 1.
ENDED = (b"Memory", b"OutOfMemory")


class Answer:
    """What a call did: its status, what it printed, and the files of its folder after it."""

    def __init__(self, call, file, limit=None, library=None, growth=0):
        name, words, self.failed = CALLS[call]
        words = [os.fspath(file) if word == "IN" else word for word in words]
        more = {}
        if library:
            more = {"LD_PRELOAD": library, "REFUSE_AT": str(growth), "REFUSE_COUNT": "1"}
        how = {"env": more, "stdin": subprocess.DEVNULL, "capture_output": True, "timeout": 60}
        if limit:
            how["preexec_fn"] = lambda: resource.setrlimit(resource.RLIMIT_AS, (limit, limit))
        with tempfile.TemporaryDirectory() as room:
            for file_name, data in BEFORE.items():
                pathlib.Path(room, file_name).write_bytes(data)
            done = subprocess.run([crates.program(name), *words], cwd=room, **how)
            self.files = {it.name: it.read_bytes() for it in pathlib.Path(room).iterdir()}
        self.status, self.out, self.error = done.returncode, done.stdout, done.stderr
        self.growths = None
        if library:
            self.error, _, counted = self.error.rpartition(b"growths=")
            self.growths = int(counted) if counted.strip().isdigit() else None

    def key(self):
        return self.status, self.out, self.error, self.files

    def ran_out(self):
        """Whether it says that memory ran out, and has left all as it was."""
        said = b"out of memory" in self.error and self.status == self.failed
        ended = self.status == 1 and any(word in self.error for word in ENDED)
        return (said or ended) and self.files == BEFORE

    def __repr__(self):
        return f"{self.status} {self.out[-80:]!r} {self.error[-200:]!r} {sorted(self.files)}"


def of_growths(call, file, library):
    """How often growths were refused, and what is wrong with the answers."""
    own = Answer(call, file, library=library)
    if own.status not in (0, 1) or not own.growths:
        return 0, [f"with {own.growths} growths: {own}"]
    faults = []
    for growth in range(1, own.growths + 1):
        answer = Answer(call, file, library=library, growth=growth)
        if answer.key() != own.key() and not answer.ran_out():
            faults.append(f"growth {growth} of {own.growths} refused: {answer}")
    return own.growths, faults


def least(does, low, high):
    """The least number of pages with which something is so, that is so with the most."""
    while high - low > 1:
        middle = (low + high) // 2
        low, high = (low, middle) if does(middle) else (middle, high)
    return high


def of_limits(call, file, steps):
    """The KiB of address space that a call needs, and what is wrong with the answers below that."""
    own = Answer(call, file)

    def holds(pages):
        return Answer(call, file, limit=pages * PAGE).key() == own.key()

    def starts(pages):
        how = {"preexec_fn": lambda: resource.setrlimit(
            resource.RLIMIT_AS, (pages * PAGE, pages * PAGE)), "capture_output": True, "env": {}}
        return subprocess.run([crates.program(CALLS[call][0])], **how).returncode == 2
    most = (1 << 30) // PAGE
    if not holds(most):
        return 0, ["another answer with 1 GiB"]
    need, base = least(holds, 0, most), least(starts, 0, most)
    faults = []
    if not holds(need * 11 // 10):
        faults.append(f"another answer with a tenth more than {need * PAGE // 1024} KiB")
    for pages in sorted({base + (need - base) * step // steps for step in range(1, steps)}):
        answer = Answer(call, file, limit=pages * PAGE)
        if answer.key() != own.key() and not answer.ran_out():
            faults.append(f"with {pages * PAGE // 1024} of {need * PAGE // 1024} KiB: {answer}")
    return need * PAGE // 1024, faults


def files(room, is_long):
    """The files whose growths are refused, and that which has many records for the limits."""
    examples = crates.TOP / "examples"
    small = [examples / "box.glb", examples / "triangle.gltf", examples / "dangling.gltf",
             examples / "two files" / "square.gltf"]
    tests = crates.TOP / "c" / "tests"
    if is_long:
        subprocess.run([sys.executable, tests / "rich.py", room], check=True)
        small += [tests / "rig.gltf", tests / "surface.gltf", room / "valid.glb"]
    large = room / "many.gltf"
    large.write_bytes(document(nodes=[{"name": f"node {at}"} for at in range(5_000)],
                               materials=[{}] * 2_000))
    return small, large


def main():
    if not all(crates.program(name).exists() for name in crates.PROGRAMS):
        print("a program is not there: rt ci builds them")
        print("0 passed, 1 failed")
        return 1
    is_long = "--long" in sys.argv[1:]
    with tempfile.TemporaryDirectory() as room:
        room = pathlib.Path(room)
        library = preload.library("refuse", room)
        small, large = files(room, is_long)
        rows = [(of_growths, call, file, library) for file in small for call in CALLS]
        rows += [(of_limits, call, file, 60 if is_long else 12) for file in (small[0], large)
                 for call in CALLS if call not in ("chunks", "indices")]
        with concurrent.futures.ThreadPoolExecutor(os.cpu_count()) as pool:
            results = list(pool.map(lambda row: row[0](*row[1:]), rows))
    for (kind, call, file, _), (number, faults) in zip(rows, results):
        what = f"{number} growths refused" if kind is of_growths else f"{number} KiB needed"
        print(f"{call} {file.name}: {what}: {'ok' if not faults else 'FAILED'}")
        for fault in faults[:5]:
            print(f"  {fault}")
    failed = sum(1 for _, faults in results if faults)
    print(f"{len(results) - failed} passed, {failed} failed")
    return 1 if failed else 0


if __name__ == "__main__":
    sys.exit(main())
