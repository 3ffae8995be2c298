#!/usr/bin/env python3
"""Runs the proved program `gltf_cases` on each case of its table `growths`: once, and once for each
growth of memory, with that growth refused. Each run gives the answer that the crate's `stdout` has,
or says that there was not enough memory. A last case has more items than any memory holds: each
refused growth that the program cannot do without ends the run.

`rt ci` leaves the program; a library made of refuse.c comes before `malloc` and `realloc`. The
last line is `N passed, M failed`: a case passes where each of its runs does.

    refusals.py [NUMBER..]     these cases of the table, counted from 1, or all"""
import json
import os
import pathlib
import subprocess
import sys
import tempfile

sys.dont_write_bytecode = True

import preload

TOP = pathlib.Path(__file__).resolve().parent.parent
CRATE = TOP / "crates" / "gltf_cases"
PROGRAM = CRATE / "out" / "gltf_cases"
TABLE = "growths.txt"
OUT_OF_MEMORY = "out of memory"
NO_COPY = ", and there is no memory for a copy"
# The calls whose sources take memory of their own: the loader sees a failure of theirs.
ASKING = ("files", "shelf", "folder")
NOT_READ, NOT_WRITTEN = "not read", "neither read nor written"
# How the program says that memory ran out, where no line has room for it.
ENDED = ("Memory", "OutOfMemory")


def cases():
    """The cases of the table, and their answers."""
    asked = (CRATE / "data" / TABLE).read_text(encoding="utf-8").splitlines()
    answers = (CRATE / "stdout").read_text(encoding="utf-8").splitlines()
    first = answers.index(TABLE) + 1
    return list(zip(asked, answers[first : first + len(asked)], strict=True))


def endless(count):
    """A case that writes so many items: a sparse accessor without a view needs no bytes."""
    view = {"bufferView": 0, "componentType": 5121}
    sparse = {"count": 1, "indices": view, "values": {"bufferView": 0}}
    accessor = {"componentType": 5121, "count": count, "type": "SCALAR", "sparse": sparse}
    document = {
        "asset": {"version": "2.0"},
        "buffers": [{"byteLength": 1}],
        "bufferViews": [{"buffer": 0, "byteLength": 1}],
        "accessors": [accessor],
        "meshes": [{"primitives": [{"attributes": {}, "indices": 0}]}],
    }
    return f"cast +00 indices into_u32 : {json.dumps(document, separators=(',', ':'))}"


class Runs:
    """Runs of the program on one case, each with a growth refused."""

    def __init__(self, folder):
        self.file = os.path.join(folder, "case.txt")
        self.library = preload.library("refuse", folder)
        self.count = 0

    def run(self, growth):
        """What the program writes with a growth refused, its status, what it says of an error, and
        the number of growths."""
        self.count += 1
        ran = subprocess.run(
            [PROGRAM, self.file],
            cwd=CRATE / "data",
            env={"LD_PRELOAD": self.library, "REFUSE_AT": str(growth), "REFUSE_COUNT": "1"},
            stdin=subprocess.DEVNULL,
            capture_output=True,
            timeout=60,
        )
        error, _, counted = ran.stderr.decode(errors="replace").rpartition("growths=")
        growths = int(counted) if counted.strip().isdigit() else None
        lines = ran.stdout.decode(errors="replace").splitlines()
        if lines[:1] == [self.file]:
            lines = lines[1:]
        return lines, ran.returncode, error.strip(), growths

    def faults(self, case, answer, refused=None):
        """What is wrong with the runs on a case: one without a growth refused, and one for each
        growth; or, where the growths are given, one for each of these alone."""
        pathlib.Path(self.file).write_text(case + "\n", encoding="utf-8")
        if refused is None:
            lines, status, error, growths = self.run(0)
            if (lines, status) != ([answer], 0) or not growths:
                return [f"{case[:80]}: {lines} {error}, with {growths} growths, and not {answer!r}"]
            refused = range(1, growths + 1)
        faults = []
        for growth in refused:
            lines, status, error, _ = self.run(growth)
            if not is_answer(case, lines, status, error, answer):
                wrote = f"{lines} {status} {error}"
                faults.append(f"{case[:80]}, growth {growth} refused: {wrote[:300]}")
        return faults


def is_answer(case, lines, status, error, answer):
    """Whether this is the case's own answer, or says that there was not enough memory: in the line,
    after a beginning of the answer, where there is one, or as the source or the writer of the call
    says it; or in the end of the program, with no line."""
    if status or not lines:
        return not lines and status == 1 and any(word in error for word in ENDED)
    line = lines[0].replace(NO_COPY, "")
    begun, found, _ = line.partition(OUT_OF_MEMORY)
    is_own = line == answer or bool(found) and (answer is None or answer.startswith(begun))
    return len(lines) == 1 and not error and (is_own or is_failure(case.split()[0], line, answer))


def is_failure(call, line, answer):
    """Whether the line says that the source or the writer of the call failed: of what is written,
    a beginning of the container; of what is read, the answer's own parts, but for those that were
    not read, and for the name that failed, which is not kept then; of a text that is counted, that
    of the error."""
    if call == "written":
        said, _, took = line.partition("; ")
        return said == NOT_WRITTEN and answer.partition("; ")[2].startswith(took)
    if call == "broken":
        return line == f"{len(OUT_OF_MEMORY)} bytes, and at the end {OUT_OF_MEMORY}"
    if call not in ASKING:
        return False
    parts, own = line.split("; "), answer.split("; ")
    names = ("None",) if own[-1].startswith("Some") else (None,) if "failed" in own[-1] else ()
    parts += [None] * (len(own) - len(parts))
    return len(parts) == len(own) and all(
        part in (mine, OUT_OF_MEMORY, NOT_READ) or last and part in names
        for part, mine, last in zip(parts, own, [False] * (len(own) - 1) + [True]))


def main(words):
    if not PROGRAM.exists():
        print(f"{PROGRAM} is not there: rt ci builds it")
        print("0 passed, 1 failed")
        return 1
    known = cases()
    chosen = [known[int(word) - 1] for word in words] or known
    with tempfile.TemporaryDirectory() as folder:
        runs = Runs(folder)
        results = [runs.faults(case, answer) for case, answer in chosen]
        if not words:
            results.append(of_endless(runs))
    for fault in sum(results, []):
        print(fault)
    failed = sum(map(bool, results))
    print(f"each growth refused in turn: {runs.count} runs")
    print(f"{len(results) - failed} passed, {failed} failed")
    return 1 if failed else 0


def of_endless(runs):
    """What is wrong where a case without end has as many growths refused as one of three items has
    in all: each of them ends it, but for those that the program can do without, which leave the
    three items their own answer."""
    own = ["into_u32 [0, 0, 0]"]
    pathlib.Path(runs.file).write_text(endless(3) + "\n", encoding="utf-8")
    lines, status, error, growths = runs.run(0)
    if (lines, status) != (own, 0) or not growths:
        return [f"three items: {lines} {status} {error}"]
    needed = [growth for growth in range(1, growths + 1) if runs.run(growth)[0] != own]
    return runs.faults(endless(2**64 - 1), None, needed)


sys.exit(main(sys.argv[1:]))
