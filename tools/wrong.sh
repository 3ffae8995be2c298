#!/bin/sh
# Tries the wrong bodies of a crate that the gate leaves out: wrong.sh CRATE. They are in
# wrong-bodies/CRATE, and are copied beside those of the gate, into crates/CRATE/must-fail, while rt
# tries them all. However it ends, the copies are removed. Without a crate it lists the crates that
# have some.
set -u
cd "$(dirname "$0")/.." || exit 2

if [ $# -ne 1 ]; then
    echo "make wrong NAME=CRATE tries the wrong bodies of a crate, those of the gate too."
    echo "More than the gate has are of:"
    for folder in wrong-bodies/*/; do
        echo "  $(basename "$folder") ($(find "$folder" -name '*.edit' | wc -l))"
    done
    exit 0
fi

others=wrong-bodies/$1
gate=crates/$1/must-fail
if [ ! -d "$others" ]; then
    echo "make wrong: there is no folder $others" >&2
    exit 2
fi
for edit in "$others"/*.edit; do
    if [ -e "$gate/$(basename "$edit")" ]; then
        echo "make wrong: $gate has a file $(basename "$edit") too: nothing was tried" >&2
        exit 2
    fi
done

trying=
made=
clean() {
    status=$?
    trap '' HUP INT TERM
    if [ -n "$trying" ]; then
        kill "$trying" 2>/dev/null
        wait "$trying" 2>/dev/null
    fi
    for edit in "$others"/*.edit; do
        rm -f "$gate/$(basename "$edit")"
    done
    if [ -n "$made" ]; then
        rmdir "$gate"
    fi
    exit "$status"
}
trap clean EXIT
trap 'exit 129' HUP
trap 'exit 130' INT
trap 'exit 143' TERM

if [ ! -d "$gate" ]; then
    made=yes
    mkdir "$gate" || exit 2
fi
cp "$others"/*.edit "$gate" || exit 2
# In the background, so that a signal is answered while it runs.
rt must-fail "$1" &
trying=$!
wait "$trying"
status=$?
trying=
exit "$status"
