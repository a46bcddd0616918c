#!/bin/sh
# Times `parse` on modules of 64 kB, 256 kB and 1 MB beside Debian's yanglint on the same file: the processor
# time of a call and of a run. It builds a small program in a folder of its own, with the proofs that the
# crates' out/ keep. The program parses a text 20 times; its start and its reading are spread over the calls.
# yanglint reads the text and compiles the module, and its start, measured on an empty module, is told apart.
set -eu
here=$(cd "$(dirname "$0")" && pwd)
top=$(cd "$here/../.." && pwd)
work=$(mktemp -d)
trap 'rm -rf "$work"' EXIT
mkdir -p "$work/crates/text_bench/src"
cp -r "$top/crates/host_core" "$top/crates/yang_text" "$work/crates/"
cp "$here/main.rt.txt" "$work/crates/text_bench/src/main.rt"
grep -E '^(host_core|yang_text):' "$top/crates.txt" > "$work/crates.txt"
echo 'text_bench: yang_text' >> "$work/crates.txt"
cd "$work" && git init -q && cd crates/text_bench
rt run > "$work/log" 2>&1 < /dev/null || { tail -n 20 "$work/log" >&2; exit 1; }
python3 - "$work/crates/text_bench/out/text_bench" "$work" <<'PY'
import os, pathlib, subprocess, sys

program, folder = sys.argv[1], pathlib.Path(sys.argv[2])
CALLS, RUNS = 20, 9

def module(bytes_wanted):
    lines = ["module m {", "  yang-version 1.1;", "  namespace \"urn:m\";", "  prefix m;", "  container top {"]
    size = sum(len(line) + 1 for line in lines) + 6
    number = 0
    while True:
        leaf = ["    // leaf %d" % number, "    leaf speed-%d {" % number,
                "      type string { length \"1..64\"; pattern '[0-9]+(,[0-9]+)*'; }",
                "      description \"The lanes of port %d, one after \"" % number, "        + 'another';", "    }"]
        more = sum(len(line) + 1 for line in leaf)
        if size + more > bytes_wanted:
            return "\n".join(lines + ["  }", "}"]) + "\n"
        lines += leaf
        size += more
        number += 1

def seconds(words, path):
    with open(path) as text:
        started = subprocess.Popen(words, stdin=text, stdout=subprocess.PIPE)
        told = started.stdout.read()
        _, status, used = os.wait4(started.pid, 0)
        started.returncode = os.waitstatus_to_exitcode(status)
        assert started.returncode == 0, words
        return used.ru_utime + used.ru_stime, told

def least(words, path, told):
    found = [seconds(words, path) for _ in range(RUNS)]
    assert all(text == told for _, text in found), found[0][1]
    return 1000 * min(time for time, _ in found)

path = folder / "m.yang"
path.write_text(module(0))
print("yanglint on an empty module %.1f ms" % least(["yanglint", str(path)], path, b""))
print("    bytes  parse, a call  yanglint, a run")
for size in (1 << 16, 1 << 18, 1 << 20):
    path.write_text(module(size))
    mine = least([program], path, b"read %d times\n" % CALLS) / CALLS
    print("%9d  %10.2f ms  %12.1f ms" % (path.stat().st_size, mine, least(["yanglint", str(path)], path, b"")))
PY
