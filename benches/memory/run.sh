#!/usr/bin/env bash
# Builds the proved program that imports a file, and measures the memory and the time that it takes
# for texts of very many short elements: `run.sh --help` says how.
set -euo pipefail
here=$(cd "$(dirname "$0")" && pwd)
work=$(mktemp -d)
trap 'rm -rf "$work"' EXIT
case " $* " in *" --help "* | *" -h "* | *" --program "*) exec python3 "$here/memory.py" "$@" ;; esac
"$here/../program.sh" imports gltf "$here/../imports.rt.txt" "$work" > /dev/null
python3 "$here/memory.py" --program "$work/crates/imports/out/imports" "$@"
