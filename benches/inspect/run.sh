#!/usr/bin/env bash
# Measures `gltf_show inspect` beside `gltf_show check`, of the proved program that `make prove`
# builds: `run.sh --help` says how.
set -euo pipefail
exec python3 "$(dirname "$0")/run.py" "$@"
