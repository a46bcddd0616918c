#!/bin/sh
# Times Pattern::matches beside Python's re, perl and grep -E -x, each call with at most 10 seconds.
# It builds a small program in a folder of its own, with the proofs that the crate's out/ keeps.
set -eu
here=$(cd "$(dirname "$0")" && pwd)
top=$(cd "$here/../.." && pwd)
work=$(mktemp -d)
trap 'rm -rf "$work"' EXIT
mkdir -p "$work/crates/pattern_bench/src"
cp -r "$top/crates/yang_pattern" "$work/crates/yang_pattern"
cp "$here/main.rt.txt" "$work/crates/pattern_bench/src/main.rt"
printf 'yang_pattern: thiserror\npattern_bench: yang_pattern\n' > "$work/crates.txt"
(cd "$work" && git init -q && cd crates/pattern_bench && rt run 2>&1 | grep microseconds)

text=$(printf '%10000s' '' | tr ' ' a)
for pattern in '(a|aa)*b' '(a{0,30}){30}'; do
    python3 - "$pattern" "$text" <<'PY' || echo "python: $pattern: over 10 seconds"
import re, signal, sys, time
signal.alarm(10)
pattern, text = sys.argv[1:]
start = time.perf_counter()
found = re.fullmatch(pattern, text)
print("python: %s matched %s microseconds %d" % (pattern, bool(found), 1e6 * (time.perf_counter() - start)))
PY
    start=$(date +%s%N)
    if printf '%s\n' "$text" | timeout 10 perl -ne "chomp; exit(/^(?:$pattern)\$/ ? 0 : 1)" 2>/dev/null; then status=0; else status=$?; fi
    echo "perl, with its start: $pattern status $status microseconds $((($(date +%s%N) - start) / 1000))"
    start=$(date +%s%N)
    if printf '%s\n' "$text" | timeout 10 grep -q -E -x "$pattern"; then status=0; else status=$?; fi
    echo "grep, with its start: $pattern status $status microseconds $((($(date +%s%N) - start) / 1000))"
done
python3 - <<'PY'
import re, time
vlan = re.compile(r"Vlan([1-9][0-9]{0,2}|[1-3][0-9]{3}|40[0-8][0-9]|409[0-4])")
start = time.perf_counter()
for _ in range(100000):
    vlan.fullmatch("Vlan4094")
print("python: vlan calls 100000 microseconds %d" % (1e6 * (time.perf_counter() - start)))
PY
