#!/bin/sh
# Times 10,000 changed copies of a configuration of 256 and of 4,096 ports, in rounds of 100, and `same` and the
# hash of such configurations: the fastest round of a hundred, which is shorter than a turn on a shared processor.
# It builds a small program in a folder of its own with `rt run`, which proves it first, with the proofs that
# the crates' out/ keep: `rt try` compiles with checks of its own, and ends a run at 60 seconds.
set -eu
here=$(cd "$(dirname "$0")" && pwd)
top=$(cd "$here/../.." && pwd)
work=$(mktemp -d)
trap 'rm -rf "$work"' EXIT
mkdir -p "$work/crates/conf_bench/src"
cp -r "$top/crates/host_core" "$top/crates/conf_doc" "$work/crates/"
cp "$here/main.rt.txt" "$work/crates/conf_bench/src/main.rt"
grep -E '^(host_core|conf_doc):' "$top/crates.txt" > "$work/crates.txt"
echo 'conf_bench: host_core conf_doc anyhow' >> "$work/crates.txt"
cd "$work" && git init -q && cd crates/conf_bench
rt run > "$work/log" 2>&1 || { tail -n 20 "$work/log" >&2; exit 1; }
grep nanoseconds "$work/log"
