#!/usr/bin/env bash
# Runs each call of the program beside this script on a container of 100 MB and on the same in two
# files, which it makes: the least and the greatest time of some runs, and the most memory.
set -euo pipefail
here=$(cd "$(dirname "$0")" && pwd)
work=$(mktemp -d)
trap 'rm -rf "$work"' EXIT
"$here/../program.sh" files_bench gltf "$here/files_bench.rt.txt" "$work" > /dev/null
python3 "$here/../make_files.py" "$work" large.glb large.gltf large.bin
python3 "$here/run.py" "$work"
