"""Runs each call on a container of 100 MB, and on the same with its bytes in a file of their own:
`run.sh` does so, with the folder where the program and the files are."""
import os
import pathlib
import subprocess
import sys

WORK = pathlib.Path(sys.argv[1])
RUNS = 7


def run(*words):
    """The milliseconds that a program prints, and the most memory that it had, in megabytes."""
    process = subprocess.Popen(words, stdout=subprocess.PIPE, text=True)
    wrote = process.stdout.read()
    _, status, usage = os.wait4(process.pid, 0)
    process.returncode = os.waitstatus_to_exitcode(status)
    if process.returncode:
        sys.exit(f"{words} ended with {process.returncode}")
    return int(wrote.split()[0]) / 1000, usage.ru_maxrss / 1000


def show(call, path):
    """The least time of some runs, the greatest, and the most memory."""
    program = WORK / "crates" / "files_bench" / "out" / "files_bench"
    runs = [run(program, call, path) for _ in range(RUNS)]
    times = sorted(time for time, _ in runs)
    memory = max(memory for _, memory in runs)
    print(f"{call:<8} {path.name:<12}{times[0]:>10.1f} to {times[-1]:.1f} ms{memory:>10.1f} MB")


def main():
    for call in ("nothing", "std", "read", "open", "import"):
        show(call, WORK / "large.glb")
    show("import", WORK / "large.gltf")


main()
