#!/usr/bin/env python3
"""Times what each crate costs: `make cost`, which is not part of the gate.

In a clone of the repository it calls, one after the other and lowest crates first, whole commands
of the toolchain: `rt lib`, or `rt run` where the crate is a program; `rt test`, where it has test
functions; and `rt must-fail`, where it has wrong bodies in the gate. Each is timed by the clock and
by the processor time of the processes that were waited for.

    cost.py                    all crates
    cost.py NAME..             these crates and those below them
    cost.py --write            all of them, and writes the table into docs/GATE.md
    cost.py --folder FOLDER    the clone is made there and stays, else in a temporary folder; a
                               later call with this folder goes on behind the crates that are done

It prints a line for each crate as it ends, then the table, and the longest way through crates.txt.
What the commands print goes to out/cost.log. `rt lib` begins with what a check kept in another copy
on this machine, this one too, and waits for one that runs there. Then the figures are not those of
a first proof: a note says so, and with --write it stops. Remove crates/*/out of the other copies
before, and the copy in which the gate proved the library for C, which is named then."""
import argparse
import contextlib
import json
import pathlib
import re
import shutil
import signal
import subprocess
import sys
import tempfile

sys.dont_write_bytecode = True

import c_copy
import crates
import gate_page
import gate_record

LOG = crates.TOP / "out" / "cost.log"
PROOF, TESTS, EDITS = TIMED = "proof", "tests", "wrong bodies"
# What `rt` says where it takes the work of another copy, or waits for it.
SHARED = re.compile(r"^rt: (\w+: (?:begins with what a check kept in|another copy of) .*)",
                    re.MULTILINE)


class Failed(Exception):
    """Why there are no figures: a command failed, or a proof was there before."""


def run_of(crate):
    """The command that proves, builds and runs a program, as the gate calls it. The program runs in
    the folder of its crate, where its data is copied to."""
    args = crate / "args"
    words = args.read_text(encoding="utf-8").splitlines() if args.exists() else []
    for file in (crate / "data").glob("*"):
        shutil.copy(file, crate)
    return ["rt", "run", "--", *words]


def commands(crate):
    """What is timed of a crate, by its kind, and the folder that it is called in."""
    is_program = (crate / "src" / "main.rt").exists()
    found = {PROOF: (run_of(crate) if is_program else ["rt", "lib"], crate)}
    if crates.has_tests(crate.name):
        found[TESTS] = ["rt", "test"], crate
    if any((crate / "must-fail").glob("*.edit")):
        found[EDITS] = ["rt", "must-fail", crate.name], crate.parent.parent
    return found


class Cost:
    """What a crate took, by kinds: the seconds of the clock and of the processor; and what `rt`
    said of work that it shared with other copies."""

    def __init__(self, name, seconds=()):
        self.name, self.seconds, self.shared = name, dict(seconds), []

    def measure(self, crate):
        for kind, (words, folder) in commands(crate).items():
            self.seconds[kind] = self.timed(words, folder)

    def timed(self, words, folder):
        """The seconds of a command. What it prints is added to the log."""
        begun = LOG.stat().st_size
        with open(LOG, "ab") as log:
            before = gate_page.times()
            done = subprocess.run(words, cwd=folder, stdin=subprocess.DEVNULL, stdout=log,
                                  stderr=subprocess.STDOUT)
            seconds = gate_page.since(before)
        self.shared += SHARED.findall(LOG.read_bytes()[begun:].decode(errors="replace"))
        if done.returncode:
            raise Failed(f"{' '.join(words)} of {self.name} ended with {done.returncode}: what it "
                         f"printed ends {LOG}")
        return seconds

    def cells(self):
        """The cells of its row: of each kind both seconds, and the processor seconds of all."""
        kinds = [self.seconds.get(kind, [None, None]) for kind in TIMED]
        return [*sum(kinds, []), self.processor()]

    def processor(self):
        return sum(processor for _, processor in self.seconds.values())

    def __str__(self):
        return f"{self.name}: " + ", ".join(
            f"{kind} {clock:.0f} s ({processor:.0f} processor s)"
            for kind, (clock, processor) in self.seconds.items())


def longest_way(costs):
    """The crates, each above the one before it, whose proofs take the most processor seconds, and
    how many. Costs are lowest first."""
    listed, ways = crates.listed(), {}
    for cost in costs:
        below = [ways[name] for name in listed[cost.name] if name in ways]
        seconds, way = max(below, default=(0, []))
        ways[cost.name] = seconds + cost.seconds[PROOF][1], [*way, cost.name]
    return max(ways.values())


def lines_of(run, costs):
    """The table and what is to be known of it, as lines of the page."""
    head = ["crate", *(f"{kind}, {by}" for kind in TIMED for by in ("clock", "processor")),
            "all, processor"]
    columns = zip(*(cost.cells() for cost in costs))
    sums = [sum(it or 0 for it in column) for column in columns]
    rows = [(f"`{cost.name}`", cost.cells())
            for cost in sorted(costs, key=Cost.processor, reverse=True)]
    seconds, way = longest_way(costs)
    return [*run.about(), "", *gate_page.table(head, [*rows, ("all", sums)]), "",
            f"The longest way through crates.txt takes {seconds:,.0f} processor seconds of proofs:",
            ", ".join(f"`{name}`" for name in way) + "."]


class Clone:
    """The clone in which crates are timed, and the file beside its crates that has what is done: of
    which commit, by which toolchain, on which machine, and what each crate took."""

    def __init__(self, folder):
        self.top, self.file = pathlib.Path(folder), pathlib.Path(folder, "cost.json")
        self.of = [gate_record.said("git", "rev-parse", "HEAD"), gate_record.toolchain(),
                   gate_page.machine()]
        self.done = {}
        if self.file.exists():
            of, self.done = json.loads(self.file.read_text(encoding="utf-8"))
            if of != self.of:
                raise Failed(f"{self.file} is of another commit, toolchain or machine")
            return
        subprocess.run(["git", "clone", "--quiet", crates.TOP, folder], check=True)
        if gate_record.said("git", "status", "--porcelain"):
            print("note: the clone has what is committed, and not what is changed here")

    def note(self, cost):
        self.done[cost.name] = cost.seconds
        self.file.write_text(json.dumps([self.of, self.done]) + "\n", encoding="utf-8")

    def cost(self, name, is_first):
        """What a crate took. Where it is to be proved for the first time and is not, it fails."""
        if name in self.done:
            return Cost(name, self.done[name])
        cost = Cost(name)
        cost.measure(self.top / "crates" / name)
        for said in cost.shared:
            if is_first:
                raise Failed(f"this is no first proof: {said}\n"
                             f"The gate's copy of the library for C is {c_copy.COPY}")
            print(f"note: this is no first proof: {said}")
        self.note(cost)
        return cost


def costs_in(folder, order, is_first):
    """What crates took in a clone, each after those that it uses. Prints each as it ends."""
    clone = Clone(folder)
    LOG.parent.mkdir(exist_ok=True)
    LOG.write_bytes(b"")
    costs = []
    for place, name in enumerate(order, 1):
        costs.append(clone.cost(name, is_first))
        print(f"[{place}/{len(order)}] {costs[-1]}", flush=True)
    return costs


def words_of(listed):
    """What the command line says."""
    plain = argparse.RawDescriptionHelpFormatter
    parser = argparse.ArgumentParser(description=__doc__, formatter_class=plain)
    parser.add_argument("names", nargs="*", metavar="NAME")
    parser.add_argument("--write", action="store_true")
    parser.add_argument("--folder")
    words = parser.parse_args()
    for name in words.names:
        if name not in listed:
            parser.error(f"there is no crate {name}")
    if words.write and words.names:
        parser.error("the table has all crates, of one run")
    return words


def main():
    listed = crates.listed()
    words, run = words_of(listed), gate_page.Run()
    order = crates.below(*(words.names or listed))
    place = contextlib.nullcontext(words.folder) if words.folder else tempfile.TemporaryDirectory()
    try:
        with place as folder:
            costs = costs_in(folder, order, words.write)
    except (Failed, OSError, gate_record.Unknown, subprocess.CalledProcessError) as why:
        print(f"make cost: {why}", file=sys.stderr)
        return 1
    lines = lines_of(run, costs)
    print("\n".join(["", "Seconds of each crate:", "", *lines]))
    if words.write:
        gate_page.put(gate_page.CRATES, lines)
    return 0


if __name__ == "__main__":
    # `kill` ends it as an interrupt does: a temporary clone is removed.
    signal.signal(signal.SIGTERM, signal.default_int_handler)
    try:
        sys.exit(main())
    except KeyboardInterrupt:
        sys.exit(130)
