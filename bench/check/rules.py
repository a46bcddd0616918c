#!/usr/bin/env python3
"""Times `gcu check` of access lists with thousands of rules beside Debian's yanglint on the same models and the same data:
whole processes, in turn, the least processor time (user and system) of some runs.

usage: bench/check/rules.py PROGRAM [RULES..]     PROGRAM is the built gcu, as crates/gcu_cli/out/gcu_cli

The configuration is that of bench/size: 64 ports, four access lists on all of them, and the rules dealt out to the lists.
"""
import json, pathlib, sys, tempfile

sys.dont_write_bytecode = True
bench = pathlib.Path(__file__).resolve().parent.parent
sys.path[:0] = [str(bench), str(bench / "size")]
from demo import least_time
from folders import configuration, make

example = bench.parent / "crates" / "gcu_cli" / "data"
program = pathlib.Path(sys.argv[1]).resolve()
sizes = [int(word) for word in sys.argv[2:]] or [4000, 16000]
PORTS, RUNS = 64, 7


def numbers(fields, names):
    """The fields with those names as JSON numbers."""
    return {name: int(value) if name in names else value for name, value in fields.items()}


def data_of(config):
    """The same in the form of RFC 7951: numbers of up to 32 bits are JSON numbers, key leaves stand in the entries."""
    ports = [{"name": name, **numbers(entry, ["speed", "mtu"])} for name, entry in config["PORT"].items()]
    tables = [{"ACL_TABLE_NAME": name, **entry} for name, entry in config["ACL_TABLE"].items()]
    rules = [dict(zip(("ACL_TABLE_NAME", "RULE_NAME"), key.split("|")), **numbers(entry, ["PRIORITY", "IP_PROTOCOL", "L4_DST_PORT"]))
             for key, entry in config["ACL_RULE"].items()]
    return {
        "sonic-port:sonic-port": {"PORT": {"PORT_LIST": ports}},
        "sonic-acl:sonic-acl": {"ACL_TABLE": {"ACL_TABLE_LIST": tables}, "ACL_RULE": {"ACL_RULE_LIST": rules}},
    }


print("| Rules | Bytes | `gcu check`, ms | yanglint, ms | Times as long |")
print("|---|---|---|---|---|")
for rules in sizes:
    with tempfile.TemporaryDirectory() as name:
        folder = pathlib.Path(name) / "row"
        make(folder, example, PORTS, rules, 0, "field")
        (folder / "data.json").write_text(json.dumps(data_of(configuration(PORTS, rules))))
        models = (example / "models.list").read_text().split()
        a = least_time([program, "check"], folder, b"done\n", RUNS)
        b = least_time(["yanglint", "-t", "config", "-p", ".", *models, "data.json"], folder, b"", RUNS)
        size = (folder / "config_db.json").stat().st_size
        print(f"| {rules:,} | {size:,} | {a:.1f} | {b:.1f} | {a / b:.2f} |", flush=True)
