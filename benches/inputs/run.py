#!/usr/bin/env python3
"""Times the proved programs of two checkouts by turns, on inputs of many kinds, and compares what
they do. Prints a table in Markdown.

    run.sh OLD [NEW] [--only WORD] [--turns N] [--count-factor F]

A checkout is the folder of a repository in which `make prove` or `rt ci` built the programs. The
seconds are the processor's, of whole processes: the median of the turns. The memory is the most
that a process had in any of them. Compared are the status, what is printed, and the files that are
written: a row says which of these differ. With one checkout its own figures are printed.

The files are made in a folder for temporary files, at most 250 MB at once, and removed.

Exit status: 0; 1 where answers differ, or a call does not end as its input wants it; 2 where the
words are wrong or a program is not there."""
import argparse
import hashlib
import multiprocessing
import pathlib
import statistics
import subprocess
import sys
import tempfile

HERE = pathlib.Path(__file__).resolve().parent
sys.dont_write_bytecode = True
sys.path[:0] = [str(HERE.parent), str(HERE.parent.parent / "tools")]

import crates
import files
import nodes
import texts
import values
from processes import ended, own_memory

ROWS = [*values.ROWS, *nodes.ROWS, *texts.ROWS, *files.ROWS]
LEAST_TURNS = 7


def digest(file):
    """That of a file, which is read piece by piece: its bytes would count as a program's memory."""
    file.seek(0)
    found = hashlib.sha256()
    while piece := file.read(1 << 20):
        found.update(piece)
    return found.hexdigest()


def take_written(folder, given):
    """The digests of the files of a folder that were not given, which it removes."""
    written = {}
    for path in sorted(folder.iterdir()):
        if path.name not in given:
            with path.open("rb") as file:
                written[path.name] = digest(file)
            path.unlink()
    return written


class Figures:
    """What is measured of the programs of a checkout on a file."""

    def __init__(self, top):
        self.top, self.seconds, self.memory, self.answers = top, [], 0, []

    def run(self, row, folder, given):
        """Makes the call of a row once."""
        program, *words = row.call.split()
        with tempfile.TemporaryFile() as out, tempfile.TemporaryFile() as error:
            with subprocess.Popen([crates.program(program, self.top), *words], cwd=folder,
                                  stdin=subprocess.DEVNULL, stdout=out, stderr=error) as process:
                seconds, memory = ended(process)
            answer = {"status": process.returncode, "stdout": digest(out), "stderr": digest(error)}
        self.seconds.append(seconds)
        self.memory = max(self.memory, memory)
        self.answers.append({**answer, **take_written(folder, given)})


def faults_of(row, figures):
    """What is wrong with the answers: what is not the same in all of them, or another status."""
    answers = [answer for it in figures for answer in it.answers]
    first = answers[0]
    names = sorted({name for answer in answers for name in first.keys() | answer.keys()
                    if answer.get(name) != first.get(name)})
    faults = [f"{name} differs" for name in names]
    if first["status"] != row.status:
        faults.append(f"status {first['status']} in place of {row.status}")
    return faults


def make(row, factor, folder):
    for name, data in row.files(factor):
        (folder / name).write_bytes(data)


def measured(row, words, folder):
    """The figures of each checkout on a row, and the bytes of its files. They are made in a process
    of its own, since a child counts the most memory of its parent as its own."""
    maker = multiprocessing.Process(target=make, args=(row, words.count_factor, folder))
    maker.start()
    maker.join()
    if maker.exitcode:
        sys.exit(f"inputs: {row.what}: the file cannot be made")
    given = {path.name: path.stat().st_size for path in folder.iterdir()}
    figures = [Figures(top) for top in words.checkouts]
    for turn in range(words.turns):
        # The one that goes first in a turn goes last in the next one.
        for it in figures if turn % 2 == 0 else reversed(figures):
            it.run(row, folder, given)
    return figures, sum(given.values())


def memory_text(memory):
    own = own_memory()
    return f"{memory / 1e6:.0f}" if memory > own else f"below {own / 1e6:.0f}"


def ratio(one, other, least=0):
    """The second by the first, where both can be told."""
    return f"{other / one:.2f}" if min(one, other) > least else ""


def line(row, figures, size, faults):
    seconds = [statistics.median(it.seconds) for it in figures]
    memory = [it.memory for it in figures]
    times = [f"{it:.3f}" for it in seconds]
    most = [memory_text(it) for it in memory]
    if len(figures) == 2:
        times.append(ratio(*seconds))
        most.append(ratio(*memory, least=own_memory()))
    said = ", ".join(faults) or "the same"
    return [f"`{row.call}`", row.what, f"{size / 1e6:.1f}", *times, *most, said]


def heads(count):
    """The heads of the columns for so many checkouts."""
    times, memory = ["seconds"], ["memory, MB"]
    if count == 2:
        times = ["seconds at the start", "now", "now over start"]
        memory = ["memory at the start, MB", "now", "now over start"]
    return ["call", "input", "MB", *times, *memory, "answers"]


def parsed():
    form = argparse.RawDescriptionHelpFormatter
    parser = argparse.ArgumentParser(prog="run.sh", description=__doc__, formatter_class=form)
    parser.add_argument("checkouts", type=pathlib.Path, nargs="+", metavar="CHECKOUT")
    parser.add_argument("--only", metavar="WORD", help="only the rows that have this in their text")
    parser.add_argument("--turns", type=int, default=LEAST_TURNS, metavar="N",
                        help=f"how often each program runs on each input: {LEAST_TURNS} at least")
    parser.add_argument("--count-factor", type=float, default=1, metavar="F",
                        help="inputs of so many times the items or bytes")
    words = parser.parse_args()
    words.checkouts = [top.resolve() for top in words.checkouts]
    words.rows = [row for row in ROWS if row.takes(words.only)]
    if len(words.checkouts) > 2 or words.turns < LEAST_TURNS or words.count_factor <= 0:
        parser.error(f"one checkout or two, {LEAST_TURNS} turns at least, a factor above 0")
    if not words.rows:
        parser.error(f"no row has {words.only} in its text")
    needed = {row.call.split()[0] for row in words.rows}
    missing = [file for top in words.checkouts for name in sorted(needed)
               if not (file := crates.program(name, top)).is_file()]
    if missing:
        parser.error(f"there is no {', no '.join(map(str, missing))}")
    return words


def main():
    words = parsed()
    columns = heads(len(words.checkouts))
    print("| " + " | ".join(columns) + " |\n" + "|---" * len(columns) + "|", flush=True)
    failed = 0
    for row in words.rows:
        with tempfile.TemporaryDirectory() as folder:
            figures, size = measured(row, words, pathlib.Path(folder))
        faults = faults_of(row, figures)
        failed += bool(faults)
        print("| " + " | ".join(line(row, figures, size, faults)) + " |", flush=True)
    print(f"{words.turns} turns, inputs of {words.count_factor:g} times the size; "
          f"{len(words.rows) - failed} rows as wanted, {failed} not", file=sys.stderr)
    return 1 if failed else 0


if __name__ == "__main__":
    sys.exit(main())
