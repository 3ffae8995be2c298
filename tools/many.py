#!/usr/bin/env python3
"""Tests examples/check_many.py: `make many [FILES=1000]`.

It makes that many files in folders, of which every tenth is broken in one of eight ways, and lets
them be checked by one process, by four, by xargs, and by a Dask cluster of two processes. Each
table has to say of each file what is wrong with it and nothing else. Some checks are made to fail
once, and one kills its worker: Dask has to try these again. One kills its worker each time: the
others of its batch have to be checked without it.

    many.py [FILES] [--rates]   with --rates by more engines, for docs/BENCHMARKS.md

What a machine has no tool for is reported as not tried, and counts neither as passed nor as failed.
The last line is `N passed, M failed`."""
import csv
import json
import os
import pathlib
import re
import shutil
import subprocess
import sys
import tempfile

sys.dont_write_bytecode = True

import crates
from programs import INDICES, accessor, buffers, document, drawn, view

SCRIPT = crates.TOP / "examples" / "check_many.py"
BOX = (crates.TOP / "examples" / "box.glb").read_bytes()
TRIANGLE = (crates.TOP / "examples" / "triangle.gltf").read_bytes()
PROGRAM = crates.program("gltf_show")
LIBRARY = crates.TOP / "out" / "c" / "libgltf.so.2"
FOUR = (4, "data:;base64,AAAAAA==")
# How a file is broken: its ending and its bytes, and the code and the pointer of its first error.
BROKEN = (
    (".gltf", document(nodes=[{"mesh": 3}]), "UNRESOLVED_REFERENCE", "/nodes/0/mesh"),
    (".glb", BOX[:-100], "GLB_LENGTH_MISMATCH", ""),
    (".glb", BOX[:11], "GLB_UNEXPECTED_END_OF_HEADER", ""),
    (".gltf", b'{"asset":', "INVALID_JSON", ""),
    (".gltf", document(buffers=buffers((4, "no%20such.bin"))), "IO_ERROR", "/buffers/0/uri"),
    (".gltf", document(buffers=buffers((5, FOUR[1]))), "BUFFER_BYTE_LENGTH_MISMATCH",
     "/buffers/0"),
    (".gltf", drawn(3, 0, 1, 3), "ACCESSOR_INDEX_OOB", INDICES),
    # A report of some 100 kB.
    (".gltf", document(nodes=[{"mesh": 3}] * 400), "UNRESOLVED_REFERENCE", "/nodes/0/mesh"),
)
FINE = (
    (".glb", BOX), (".gltf", TRIANGLE), (".gltf", drawn(3, 0, 1, 2)),
    (".gltf", document(buffers=buffers(FOUR), bufferViews=[view(0, 4)],
                       accessors=[accessor(5123, 2)])),
)
# A program in front of gltf_show. It fails at the first check of a file that is called so, and of
# one it kills the worker that called it.
FLAKY = """#!/bin/sh
for path; do :; done
name=${path##*/}
case $name in
    flaky*) mkdir "$GLTF_MARKS/$name" 2> /dev/null && exit 3 ;;
    killer*) mkdir "$GLTF_MARKS/$name" 2> /dev/null && kill -9 "$PPID" && exit 3 ;;
    murder*) mkdir -p "$GLTF_MARKS/$name" && kill -9 "$PPID" && exit 3 ;;
esac
exec "$GLTF_REAL" "$@"
"""
# A cluster of two processes. It prints its address, and ends with its input.
CLUSTER = """from dask.distributed import LocalCluster

if __name__ == "__main__":
    cluster = LocalCluster(n_workers=2, threads_per_worker=1, dashboard_address=None)
    print(cluster.scheduler_address, flush=True)
    input()
    cluster.close()
"""
counts = {"passed": 0, "failed": 0}


def note(what, faults):
    """Counts one test, and prints what is wrong."""
    counts["failed" if faults else "passed"] += 1
    print(f"{'FAILED' if faults else 'passed'}: {what}", flush=True)
    for fault in faults[:10]:
        print(f"  {fault}")


def not_tried(what, why):
    print(f"not tried: {what}, since {why}", flush=True)


def make(folder, count):
    """Makes the files, and gives what a table has to say of each: of its path the verdict, the
    code and the pointer."""
    wanted = {}
    for number in range(count):
        place = folder / f"part {number % 7}" / f"sét {number % 3}"
        place.mkdir(parents=True, exist_ok=True)
        if number % 10 == 3:
            ending, held, code, pointer = BROKEN[number // 10 % len(BROKEN)]
            says = ["faults", code, pointer]
        else:
            ending, held = FINE[number % len(FINE)]
            says = ["ok", "", ""]
        file = place / f"file {number:05}{ending}"
        file.write_bytes(held)
        wanted[str(file)] = says
    (folder / "notes.txt").write_text("no glTF file")
    (folder / "folder.glb").mkdir()
    return wanted


def python_with(module):
    """The path of a Python that has a module; None where there is none."""
    for path in (sys.executable, "/usr/bin/python3"):
        ran = subprocess.run([path, "-c", f"import {module}"], check=False,
                             stdout=subprocess.DEVNULL, stderr=subprocess.DEVNULL)
        if ran.returncode == 0:
            return path
    return None


def environment(**more):
    return {**os.environ, "GLTF_LIBRARY": str(LIBRARY), "GLTF_SHOW": str(PROGRAM),
            "PYTHONPATH": str(crates.TOP / "python"), "PYTHONDONTWRITEBYTECODE": "1", **more}


def checked(words, table, python=sys.executable, cwd=None):
    """What the script said, with the table that it wrote."""
    ran = subprocess.run([python, str(SCRIPT), *map(str, words), "--out", str(table)], check=False,
                         env=environment(), cwd=cwd, stdout=subprocess.PIPE,
                         stderr=subprocess.PIPE, text=True)
    lines = []
    if table.is_file():
        with open(table, newline="", encoding="utf-8") as held:
            lines = list(csv.reader(held))
    return ran, lines


def faults_of(ran, lines, wanted, has_times=True):
    """What is wrong with a table and with what the script said."""
    if not lines or lines[0] != ["file", "verdict", "code", "pointer", "milliseconds"]:
        return [f"no table: {ran.stderr[-2000:]}"]
    found = {line[0]: line[1:4] for line in lines[1:]}
    faults = [f"{path}: {found.get(path)} in place of {says}"
              for path, says in wanted.items() if found.get(path) != says]
    faults += [f"{path} is not among the files" for path in found if path not in wanted]
    if [line[0] for line in lines[1:]] != sorted(wanted):
        faults.append("the lines are not one of each file, in their order")
    if has_times and any(float(line[4]) < 0 for line in lines[1:] if line[1] in ("ok", "faults")):
        faults.append("a time is negative")
    verdicts = [says[0] for says in wanted.values()]
    shown = ", ".join(f"{verdicts.count(it)} {it}" for it in sorted(set(verdicts)))
    head = next((line for line in ran.stderr.splitlines() if " files in " in line), "")
    if not head.startswith(f"{len(wanted)} files in ") or not head.endswith(f": {shown}"):
        faults.append(f"the summary is {head!r}: not {shown}")
    if ran.returncode != (0 if set(verdicts) == {"ok"} else 1):
        faults.append(f"status {ran.returncode}")
    print(f"  {head}")
    return faults


def test_processes(room, wanted, rates):
    """One process and four; a list of paths with a file that is not there; a folder of fine
    files."""
    for count in (1, 2, 4) if rates else (1, 4):
        ran, lines = checked([room / "files", "--processes", count], room / "table.csv")
        note(f"the table by {count} processes", faults_of(ran, lines, wanted))
    some = dict(list(wanted.items())[:30])
    gone = str(room / "gone.glb")
    (room / "list").write_text("\n".join([*some, gone, ""]), encoding="utf-8")
    ran, lines = checked(["--list", room / "list", "--processes", "2"], room / "table.csv")
    why = next((line[2] for line in lines if line[0] == gone), "")
    faults = faults_of(ran, lines, {**some, gone: ["unreadable", why, ""]})
    note("the table of a list with a file that is not there",
         faults if why.startswith(gone) else [*faults, f"the reason is {why!r}"])
    fine = {path: says for path, says in wanted.items() if says[0] == "ok"}
    ran, lines = checked([*list(fine)[:20], "--processes", "2"], room / "table.csv")
    note("files by their names", faults_of(ran, lines, dict(list(fine.items())[:20])))
    ran, _ = checked([], room / "none.csv")
    note("no file", [] if ran.returncode == 2 else [f"status {ran.returncode}"])


def test_xargs(room, wanted):
    """The command of docs/MANY-FILES.md, and the table of its reports."""
    if not shutil.which("xargs") or not shutil.which("find"):
        not_tried("xargs", "there is no xargs or no find")
        return
    page = (crates.TOP / "docs" / "MANY-FILES.md").read_text("utf-8")
    shown = re.search(r"^\$ (mkdir reports\n.*?) sh\n\$ (cat .*?)$", page, re.MULTILINE | re.DOTALL)
    command = re.sub(r"^[$>] ", "", f"{shown[1]} sh", flags=re.MULTILINE)
    command = command.replace("find assets", 'find "$0/files"')
    known = environment(PATH=f"{PROGRAM.parent}:{os.environ['PATH']}")
    ran = subprocess.run(["sh", "-c", command, room], cwd=room, env=known, check=False,
                         stdout=subprocess.DEVNULL)
    faults = [] if ran.returncode == 123 else [f"status {ran.returncode}"]
    subprocess.run(["sh", "-c", shown[2]], cwd=room, check=True)
    reports = room / "reports.jsonl"
    lines = reports.read_text("utf-8").splitlines()
    if {json.loads(line)["uri"] for line in lines} != set(wanted) or len(lines) != len(wanted):
        faults.append("the reports are not one line of each file")
    note("reports by xargs", faults)
    ran, lines = checked([room / "files", "--reports", reports], room / "table.csv")
    note("the table of reports", faults_of(ran, lines, wanted, has_times=False))


def test_dask(room, wanted, rates):
    """A cluster of two processes, and what is tried again."""
    python = python_with("distributed")
    if python is None:
        not_tried("Dask", "there is no distributed (Debian: python3-distributed)")
        return
    for count in (1, 2, 4) if rates else (2,):
        ran, lines = checked([room / "files", "--dask-workers", count], room / "table.csv", python)
        note(f"the table by a Dask cluster of {count}", faults_of(ran, lines, wanted))
    test_tries(room, python)


def test_tries(room, python):
    """Checks that fail once, by a cluster that is there already and has another folder."""
    for name, text in {"flaky.sh": FLAKY, "cluster.py": CLUSTER}.items():
        (room / name).write_text(text)
        (room / name).chmod(0o755)
    wanted, marks = {}, room / "marks"
    for folder in (marks, room / "flaky", room / "elsewhere"):
        folder.mkdir()
    for name in [*(f"flaky{number}.glb" for number in range(8)), "killer.glb", "murderer.glb"]:
        (room / "flaky" / name).write_bytes(BOX)
        wanted[f"flaky/{name}"] = ["ok", "", ""]
    known = environment(GLTF_SHOW=str(room / "flaky.sh"), GLTF_REAL=str(PROGRAM),
                        GLTF_MARKS=str(marks))
    with subprocess.Popen([python, str(room / "cluster.py")], cwd=room / "elsewhere", env=known,
                          stdin=subprocess.PIPE, stdout=subprocess.PIPE, text=True,
                          stderr=subprocess.DEVNULL) as cluster:
        address = cluster.stdout.readline().strip()
        ran, lines = checked(["flaky", "--dask", address, "--batch", "4"], room / "table.csv",
                             python, cwd=room)
        cluster.communicate("\n")
    why = next((line[2] for line in lines if line[0] == "flaky/murderer.glb"), "")
    wanted["flaky/murderer.glb"] = ["failed", why, ""]
    faults = faults_of(ran, lines, wanted)
    note("Dask tries again what failed, and what a lost worker had",
         faults + ([] if len(os.listdir(marks)) == len(wanted) else ["not each failed once"]))


def main(words):
    rates = "--rates" in words
    words = [word for word in words if word != "--rates"]
    if len(words) > 1 or not all(word.isdigit() and int(word) >= 80 for word in words):
        print(__doc__)
        return 2
    missing = [str(file) for file in (PROGRAM, LIBRARY) if not file.is_file()]
    if missing:
        print(f"many.py: there is no {', no '.join(missing)}: make prove and make c build them",
              file=sys.stderr)
        print("0 passed, 1 failed")
        return 1
    with tempfile.TemporaryDirectory() as name:
        room = pathlib.Path(name)
        (room / "files").mkdir()
        wanted = make(room / "files", int(words[0]) if words else 1000)
        test_processes(room, wanted, rates)
        test_xargs(room, wanted)
        test_dask(room, wanted, rates)
    print(f"{counts['passed']} passed, {counts['failed']} failed")
    return 1 if counts["failed"] else 0


if __name__ == "__main__":
    sys.exit(main(sys.argv[1:]))
