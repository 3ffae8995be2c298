#!/usr/bin/env bash
# Runs the program beside this script.
set -euo pipefail
here=$(cd "$(dirname "$0")" && pwd)
work=$(mktemp -d)
trap 'rm -rf "$work"' EXIT
"$here/../program.sh" records_bench "gltf_json_deserialize serde_json" \
    "$here/records_bench.rt.txt" "$work"
