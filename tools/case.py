#!/usr/bin/env python3
"""Runs the cases alone: `make case`.

The proved program of a crate of cases runs where it is built of the present sources; else the
toolchain's quick runner runs the same sources, with no proof. What it prints is compared with the
tables, and each case that has another answer is shown.

    case.py [CRATE..]     the cases of these crates, or of all"""
import pathlib
import shutil
import subprocess
import sys
import tempfile

sys.dont_write_bytecode = True

import cases
import crates

UNPROVED = (
    "make case: {0} is not built of these sources, so the quick runner runs them: no proof, "
    "run-time checks, some minutes. make check NAME={0} proves it."
)


def run(name, out):
    """The status of the program of a crate, which writes to a file. It gets a copy of its data."""
    folder = cases.folder_of(name)
    # What the program is called with: its tables, one a line.
    words = (folder / "args").read_text(encoding="utf-8").splitlines()
    how = {"stdin": subprocess.DEVNULL, "stdout": out}
    if crates.is_fresh(name):
        with tempfile.TemporaryDirectory() as room:
            room = pathlib.Path(room) / "data"
            shutil.copytree(folder / "data", room)
            return subprocess.run([crates.program(name), *words], cwd=room, **how).returncode
    if not shutil.which("rt"):
        sys.exit("make case: the Rattle toolchain (rt) is not on the path")
    print(UNPROVED.format(name), file=sys.stderr, flush=True)
    given = [word for file in sorted((folder / "data").iterdir())
             for word in ("--data", f"{file.name}={file}")]
    return subprocess.run(["rt", "try", *given, "--", *words], cwd=folder, **how).returncode


def is_right(name):
    """Whether the program of a crate prints what its tables say."""
    with tempfile.TemporaryDirectory() as room:
        printed = pathlib.Path(room) / "printed"
        with printed.open("wb") as out:
            status = run(name, out)
        print(f"== {name}")
        differs = cases.compare(name, printed.read_text("utf-8"), cases.CRATES[name][0])
    if status:
        print(f"{name} ended with {status}")
    return not status and not differs


def main(names):
    if not set(names) <= set(cases.CRATES):
        print(__doc__)
        return 2
    if subprocess.run([sys.executable, cases.__file__, "--check"]).returncode:
        return 1
    results = [is_right(name) for name in names or cases.CRATES]
    return 0 if all(results) else 1


try:
    sys.exit(main(sys.argv[1:]))
except KeyboardInterrupt:
    sys.exit(130)
