#!/usr/bin/env bash
# `program.sh NAME CRATES TEXT FOLDER` proves and builds the program of that text over these crates,
# in a folder of its own, as FOLDER/crates/NAME/out/NAME, and runs it once, without words. It needs
# `rt` on the path. Programs of benchmarks are text files, since `rt ci` takes every .rt file for
# part of a crate.
set -euo pipefail
name=$1 crates=$2 text=$3 work=$4
top=$(cd "$(dirname "$0")/.." && pwd)
mkdir -p "$work/crates/$name/src" "$work/.git"
# The crates that these stand on, and no others.
awk -v wanted="$crates" '
    /^[a-z]/ { split($0, parts, ":"); split(parts[1], head, " "); line[head[1]] = $0 }
    END {
        count = split(wanted, list, " ")
        for (at = 1; at <= count; at++) {
            it = list[at]
            if (!(it in line) || it in taken) continue
            taken[it] = 1
            print line[it]
            below = line[it]
            sub(/^[^:]*:/, "", below)
            more = split(below, names, " ")
            for (k = 1; k <= more; k++) list[++count] = names[k]
        }
    }' "$top/crates.txt" > "$work/crates.txt"
for crate in $(cut -d: -f1 "$work/crates.txt"); do
    cp -r "$top/crates/$crate" "$work/crates"
done
printf '%s: %s\n' "$name" "$crates" >> "$work/crates.txt"
cp "$text" "$work/crates/$name/src/main.rt"
(cd "$work/crates/$name" && rt run 2> "$work/log") || { cat "$work/log"; exit 1; }
