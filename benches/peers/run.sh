#!/bin/sh
# Measures loaders side by side on the same files: `run.sh --help` says how.
exec python3 "$(dirname "$0")/peers.py" "$@"
