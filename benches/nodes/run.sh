#!/usr/bin/env bash
# Runs the program beside this script.
set -euo pipefail
here=$(cd "$(dirname "$0")" && pwd)
work=$(mktemp -d)
trap 'rm -rf "$work"' EXIT
"$here/../program.sh" nodes_bench \
    "gltf_inspect_nodes gltf_findings gltf_json_deserialize gltf_json gltf_validation serde_json" \
    "$here/nodes_bench.rt.txt" "$work"
