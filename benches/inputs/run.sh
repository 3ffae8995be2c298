#!/usr/bin/env bash
# Times the proved programs of two checkouts by turns, on inputs of many kinds: `run.sh --help` says
# how.
set -euo pipefail
exec python3 "$(dirname "$0")/run.py" "$@"
