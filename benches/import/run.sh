#!/usr/bin/env bash
# Runs the program beside this script on three files, which it makes: once for the times of all
# calls, and once for the most memory of each call.
set -euo pipefail
here=$(cd "$(dirname "$0")" && pwd)
work=$(mktemp -d)
trap 'rm -rf "$work"' EXIT
"$here/../program.sh" import_bench gltf "$here/import_bench.rt.txt" "$work" > /dev/null
python3 "$here/../make_files.py" "$work" large.glb records.gltf payload.gltf
python3 - "$work/crates/import_bench/out/import_bench" "$work" <<'PYTHON'
import os
import subprocess
import sys

FILES = {
    "large.glb": "container of 100 MB",
    "records.gltf": "text of 21 MB, many records",
    "payload.gltf": "text of 30 MB, one data URI",
}


def run(*words):
    """What the program writes, and the most memory that it had, in megabytes."""
    process = subprocess.Popen([sys.argv[1], *words], stdout=subprocess.PIPE, text=True)
    wrote = process.stdout.read()
    _, status, usage = os.wait4(process.pid, 0)
    process.returncode = os.waitstatus_to_exitcode(status)
    if process.returncode:
        sys.exit(f"{words} ended with {process.returncode}")
    return wrote, usage.ru_maxrss / 1000


for name, what in FILES.items():
    file = f"{sys.argv[2]}/{name}"
    print(f"{what:<32}{'milliseconds':>14}{'megabytes':>12}")
    for line in run(file)[0].splitlines():
        call, time, _ = line.split()
        wrote, memory = run(file, call)
        if wrote.split()[2] != line.split()[2]:
            sys.exit(f"{name} {call} gives two answers")
        print(f"  {call:<30}{int(time) / 1000:>14.1f}{memory:>12.0f}")
PYTHON
