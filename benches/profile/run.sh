#!/usr/bin/env bash
# Builds the proved program that imports a file, and shows where the instructions of one import go,
# of examples/box.glb or of another file: `run.sh --help` says how.
set -euo pipefail
here=$(cd "$(dirname "$0")" && pwd)
work=$(mktemp -d)
trap 'rm -rf "$work"' EXIT
case " $* " in *" --help "* | *" -h "* | *" --program "*) exec python3 "$here/profile.py" "$@" ;; esac
"$here/../program.sh" imports gltf "$here/../imports.rt.txt" "$work" > /dev/null
python3 "$here/profile.py" --program "$work/crates/imports/out/imports" "$@"
