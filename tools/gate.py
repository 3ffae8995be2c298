#!/usr/bin/env python3
"""The part of the gate that takes long: `rt ci`, and then each script that runs the programs
that it proved and built. The last line adds up the results of all: `N passed, M failed`.

Each of them ends with such a line of its own. Where one ends otherwise, it counts as one that
failed; where `rt ci` fails, the scripts are run nevertheless, over what it built.

The library for C is proved in a copy of its crates meanwhile (`c.py --beside`), since `rt ci`
builds no archive of it, where there are more than two processors. What that prints goes to a log,
and is shown where it fails.

    gate.py             runs them, and prints what each part took
    gate.py --write     the same, and where nothing failed writes that into docs/GATE.md

out/gate.json keeps which tree it ran on, and its last line, for PROOF.txt of `make dist`."""
import collections
import os
import re
import signal
import subprocess
import sys
import threading
import time

sys.dont_write_bytecode = True

import c_copy
import crates
import gate_page
import gate_record
import proving

BESIDE = ["python3", "tools/c.py", "--beside"]
LIBRARY = ["python3", "tools/c.py"]
# Each runs in the folder of the repository. What needs the library for C is behind what needs the
# programs alone.
PARTS = (
    ["rt", "ci"],
    ["python3", "tools/refusals.py"],
    ["python3", "tools/programs.py"],
    ["python3", "tools/conversions.py"],
    ["python3", "tools/gltfpack.py"],
    ["python3", "tools/findings.py"],
    ["python3", "tools/budgets.py"],
    ["python3", "tools/pages.py"],
    ["python3", "tools/devices.py"],
    ["python3", "tools/memory.py"],
    LIBRARY,
    ["python3", "tools/python.py"],
    ["python3", "tools/rust.py"],
    ["python3", "tools/many.py"],
    ["python3", "tools/packages.py"],
    ["python3", "tools/stack.py"],
    ["python3", "tools/fuzz.py", "--regressions"],
)
RESULT = re.compile(r"(\d+) passed, (\d+) failed")
# What a line of a part has where something failed. The last of them are printed once more.
FAULT = re.compile(r"FAILED|NOT PROVED|NOT TRIED|WRONG|Error|error:|expected|differs|failed:"
                   r"|growth \d+ refused:")
MOST_FAULTS, LONGEST, MOST_SHOWN = 6, 300, 2000
LOG, JOBS = proving.own_cache() / "beside.log", proving.own_cache() / "beside.jobs"
# The line in which `rt ci` says how much it did, and how much it took from earlier runs.
DONE = re.compile(r"rt: ok\b.*")
TOOLCHAIN = re.compile(r"rattle-kit-\S+ logic [0-9a-f]+")


def waited(process, begun):
    """Waits for the end of a process: the seconds of the clock since it was begun, and those of the
    processor."""
    _, status, used = os.wait4(process.pid, 0)
    process.returncode = os.waitstatus_to_exitcode(status)
    return [time.monotonic() - begun, used.ru_utime + used.ru_stime]


class Beside:
    """The proof of the library for C, begun, where it was not proved before. It has at most so many
    checks at once, or none."""

    def __init__(self, jobs):
        self.name, self.begun = " ".join(BESIDE), time.monotonic()
        self.process, self.seconds = None, [0, 0]
        if jobs:
            self.start(jobs)

    def start(self, jobs):
        LOG.parent.mkdir(parents=True, exist_ok=True)
        self.allow(jobs)
        with LOG.open("wb") as log:
            self.process = subprocess.Popen(BESIDE, cwd=crates.TOP, stdout=log, stderr=log,
                                            env={**os.environ, "GLTF_JOBS": os.fspath(JOBS)})
        # Its end is noted when it comes: the gate waits for it later.
        self.waiting = threading.Thread(target=self.note_end, daemon=True)
        self.waiting.start()

    def note_end(self):
        self.seconds = waited(self.process, self.begun)

    def allow(self, jobs):
        """From now on it has at most so many checks at once."""
        JOBS.write_text(str(jobs), encoding="utf-8")

    def wait(self):
        """Waits for its end, and shows how it failed. Then `c.py` proves it once more."""
        if not self.process:
            return
        self.waiting.join()
        if self.process.returncode:
            print(f"{self.name} failed:\n{LOG.read_text(errors='replace')[-MOST_SHOWN:]}")

    def stop(self):
        """Ends it, where it still runs: the gate was broken off."""
        if self.process and self.waiting.is_alive():
            self.process.terminate()
            self.waiting.join()


class Part:
    """A part of the gate, run, with its text passed on: how many passed and failed, its lines on
    failures, how much it says that it did, and the seconds of the clock and of the processor."""

    def __init__(self, words):
        self.name = " ".join(words)
        self.last, self.done, self.faults = "", None, collections.deque(maxlen=MOST_FAULTS)
        print(f"== {self.name}", flush=True)
        how = {"stdout": subprocess.PIPE, "stderr": subprocess.STDOUT, "errors": "replace"}
        begun = time.monotonic()
        part = subprocess.Popen(words, cwd=crates.TOP, **how)
        for line in part.stdout:
            self.note(line)
            print(line, end="", flush=True)
        self.seconds = waited(part, begun)
        self.passed, self.failed = self.counts(part.returncode)

    def note(self, line):
        self.last = line.strip() or self.last
        self.done = line.strip() if DONE.match(line) else self.done
        if FAULT.search(line) and "as it must be" not in line:
            self.faults.append(line.rstrip()[:LONGEST])

    def counts(self, status):
        """How many passed and failed, by the last line and the status."""
        result = RESULT.fullmatch(self.last)
        if not result:
            self.faults.append(f"the last line: {self.last[:LONGEST]}")
            return 0, 1
        passed, failed = map(int, result.groups())
        return passed, failed or int(status != 0)

    def show(self):
        """Prints its result, and once more what failed."""
        print(f"{self.name}: {self.passed} passed, {self.failed} failed")
        if self.failed:
            print("\n".join(self.faults))


def note_toolchains(here):
    """Says which pages name another toolchain than the one that is here."""
    for page in [crates.TOP / "README.md", *sorted((crates.TOP / "docs").glob("*.md"))]:
        for named in sorted(set(TOOLCHAIN.findall(page.read_text(encoding="utf-8")))):
            if named != here:
                place = page.relative_to(crates.TOP)
                print(f"note: {place} names toolchain {named}; this is {here}")


def cost(run, parts, beside, whole, result):
    """What the parts took, as lines of the page."""
    about = run.about(f"`{result}`, with `RT_JOBS={os.environ['RT_JOBS']}`.",
                      *(f"`{part.name}`: `{part.done}`." for part in parts if part.done))
    rows = [(f"`{part.name}`", part.seconds) for part in parts]
    rows.insert(1, (f"`{beside.name}`, meanwhile", beside.seconds))
    rows.append(("all", whole))
    return [*about, "", *gate_page.table(["part", "by the clock", "processor"], rows)]


def run_all(beside, most):
    """Runs the parts, and what runs beside them up to the one that needs it. It has all processors
    once `rt ci` has ended."""
    for words in PARTS:
        if words == LIBRARY:
            beside.wait()
        yield Part(words)
        if beside.process:
            beside.allow(most)


def main(words):
    if words not in ([], ["--write"]):
        print(__doc__)
        return 2
    # With a number `rt ci` gives no check two processors, which would cost it a sixth more
    # processor time. Where there are two at most, the library for C comes behind `rt ci`.
    most = proving.checks_at_once()
    is_beside = most > 2 and not c_copy.is_of_these_sources()
    os.environ.setdefault("RT_JOBS", str(most - 1 if is_beside else most))
    run, begun, before = gate_page.Run(), gate_record.begin(), gate_page.times()
    note_toolchains(gate_record.toolchain())
    beside = Beside(most // 2 if is_beside else 0)
    try:
        parts = list(run_all(beside, most))
    finally:
        beside.stop()
    passed, failed = sum(part.passed for part in parts), sum(part.failed for part in parts)
    result = f"{passed} passed, {failed} failed"
    gate_record.end(begun, result)
    lines = cost(run, parts, beside, gate_page.since(before), result)
    print("\n".join(["", "Seconds of each part:", "", *lines, ""]))
    for part in parts:
        part.show()
    if words and not failed:
        gate_page.put(gate_page.PARTS, lines)
    print(result)
    return 1 if failed else 0


if __name__ == "__main__":
    # `kill` ends what runs, as an interrupt does.
    signal.signal(signal.SIGTERM, signal.default_int_handler)
    try:
        sys.exit(main(sys.argv[1:]))
    except KeyboardInterrupt:
        sys.exit(130)
