#!/usr/bin/env bash
# Builds the loops over items and the driver beside this script in a folder of their own, and runs
# them. It needs `rt` and `rustc` on the path, and ends with 1 where a bound is missed. The loops
# are in a text file, since `rt ci` takes every .rt file for part of a crate.
set -euo pipefail
here=$(cd "$(dirname "$0")" && pwd)
work=$(mktemp -d)
trap 'rm -rf "$work"' EXIT
mkdir -p "$work/crates/items_bench/src"
cp -r "$here/../../crates/gltf_items" "$work/crates"
rm -rf "$work/crates/gltf_items/out"
cp "$here/items_bench.rt.txt" "$work/crates/items_bench/src/lib.rt"
printf 'gltf_items: byteorder\nitems_bench staticlib: gltf_items\n' > "$work/crates.txt"
(cd "$work/crates/items_bench" && rt lib > "$work/log" 2>&1) || { cat "$work/log"; exit 1; }
rustc --edition 2024 -O -C target-cpu=x86-64-v2 -L "$work/crates/items_bench/out" \
    -o "$work/driver" "$here/driver.rs"
"$work/driver"
