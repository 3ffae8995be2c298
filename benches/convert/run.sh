#!/usr/bin/env bash
# Measures `gltf_convert` on 100 MB in four buffers, there and back: `run.sh --help` says how. The
# proved program has to be built, as `make prove` does.
set -euo pipefail
here=$(cd "$(dirname "$0")" && pwd)
exec python3 "$here/convert.py" "$@"
