#!/bin/sh
# Times `load` on a folder in memory: a configuration of about 1 MB, with 0, 100, 1,000 and 10,000 step files.
# It builds a small program in a folder of its own with `rt run`, which proves it first: `rt try` compiles with
# checks of its own, and ends a run at 60 seconds.
set -eu
here=$(cd "$(dirname "$0")" && pwd)
top=$(cd "$here/../.." && pwd)
work=$(mktemp -d)
trap 'rm -rf "$work"' EXIT
mkdir -p "$work/crates/store_bench/src"
for crate in host_core conf_doc patch_core conf_store; do
    cp -r "$top/crates/$crate" "$work/crates/"
done
cp "$here/main.rt.txt" "$work/crates/store_bench/src/main.rt"
grep -E '^(host_core|conf_doc|patch_core|conf_store):' "$top/crates.txt" > "$work/crates.txt"
echo 'store_bench: host_core conf_store anyhow' >> "$work/crates.txt"
cd "$work" && git init -q && cd crates/store_bench
rt run > "$work/log" 2>&1 || { tail -n 20 "$work/log" >&2; exit 1; }
grep microseconds "$work/log"
