#!/bin/sh
# Times `accepts_plain`, nanoseconds a call, beside Python's `ipaddress` and `re` on the same texts. Both sides
# take the fastest of many rounds of 1,000 calls: a round is shorter than a turn on a shared processor.
# It builds a small program in a folder of its own, with the proofs that the crates' out/ keep.
set -eu
here=$(cd "$(dirname "$0")" && pwd)
top=$(cd "$here/../.." && pwd)
work=$(mktemp -d)
trap 'rm -rf "$work"' EXIT
mkdir -p "$work/crates/types_bench/src"
cp -r "$top/crates/host_core" "$top/crates/yang_pattern" "$top/crates/yang_types" "$work/crates/"
cp "$here/main.rt.txt" "$work/crates/types_bench/src/main.rt"
grep -E '^(host_core|yang_pattern|yang_types):' "$top/crates.txt" > "$work/crates.txt"
echo 'types_bench: host_core yang_pattern yang_types anyhow' >> "$work/crates.txt"
cd "$work" && git init -q && cd crates/types_bench
rt run > "$work/log" 2>&1 || { tail -n 20 "$work/log" >&2; exit 1; }
"$work/crates/types_bench/out/types_bench"
python3 - <<'PY'
import ipaddress, re, time

def accepts(read):
    def test(text):
        try:
            read(text)
            return True
        except ValueError:
            return False
    return test

number = re.compile(r"[+-]?[0-9]+")
vlan = re.compile(r"Vlan([1-9][0-9]{0,2}|[1-3][0-9]{3}|40[0-8][0-9]|409[0-4])")
ethernet = re.compile(r"Ethernet[0-9]{1,3}")
mac = re.compile(r"[0-9a-fA-F]{2}(:[0-9a-fA-F]{2}){5}")
words = ["up", "down"]
address = accepts(ipaddress.ip_address)
tests = [
    ("mtu", "9100", lambda text: bool(number.fullmatch(text)) and 68 <= int(text) <= 9216),
    ("alias", "etp1a, port of the first line card", lambda text: 1 <= len(text) <= 128),
    ("vlan", "Vlan4094", lambda text: bool(vlan.fullmatch(text))),
    ("status", "down", lambda text: text in words),
    ("union", "Ethernet124", lambda text: address(text) or bool(ethernet.fullmatch(text))),
    ("ipv4-address", "192.168.100.200", accepts(ipaddress.IPv4Address)),
    ("ipv6-address", "2001:db8::1:0:0:1", accepts(ipaddress.IPv6Address)),
    ("ip-prefix", "10.20.30.0/24", accepts(ipaddress.ip_interface)),
    ("mac-address", "00:1a:2B:3c:4D:5e", lambda text: bool(mac.fullmatch(text))),
]
for name, text, test in tests:
    least = None
    for _ in range(200):
        start = time.perf_counter_ns()
        accepted = sum(test(text) for _ in range(1000))
        spent = time.perf_counter_ns() - start
        least = spent if least is None else min(least, spent)
    print("python: %s %s accepted %d nanoseconds %d" % (name, text, accepted, least // 1000))
PY
