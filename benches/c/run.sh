#!/bin/sh
# Measures the library for C: `run.sh --help` says what.
exec python3 "$(dirname "$0")/bench.py" "$@"
