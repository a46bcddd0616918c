#!/usr/bin/env python3
"""Times `gcu check` beside Debian's yanglint on the same models and the same data: whole processes, the least processor time
(user and system) of some runs.

usage: bench/check/run.py PROGRAM [PORTS..]     PROGRAM is the built gcu, as crates/gcu_cli/out/gcu_cli

The configuration has that many ports, five VLANs for eight ports, and a member for each port; once more with an NTP source,
so that the must over all ports is tested. The models are all those of the example folder. yanglint reads the data in the form
of RFC 7951. Where valgrind is there, the instructions of one run of each (up to 1,024 ports) stand beside the times.
"""
import json, pathlib, shutil, sys, tempfile

sys.dont_write_bytecode = True
sys.path.insert(0, str(pathlib.Path(__file__).resolve().parent.parent))
from demo import instructions, least_time, start_of

example = pathlib.Path(__file__).resolve().parent.parent.parent / "crates" / "gcu_cli" / "data"
program = pathlib.Path(sys.argv[1]).resolve()
sizes = [int(word) for word in sys.argv[2:]] or [64, 256, 1024, 4096]
RUNS, MOST_COUNTED = 15, 1024


def data_of(config):
    """The same in the form of RFC 7951: numbers of up to 32 bits are JSON numbers, key leaves stand in the entries."""
    ports = [{"name": name, **entry, "speed": int(entry["speed"])} for name, entry in config["PORT"].items()]
    vlans = [{"name": name, "vlanid": int(entry["vlanid"])} for name, entry in config["VLAN"].items()]
    members = [dict(zip(("name", "port"), key.split("|")), **entry) for key, entry in config["VLAN_MEMBER"].items()]
    data = {
        "sonic-port:sonic-port": {"PORT": {"PORT_LIST": ports}},
        "sonic-vlan:sonic-vlan": {
            "VLAN": {"VLAN_LIST": vlans},
            "VLAN_MEMBER": {"VLAN_MEMBER_LIST": members},
        },
    }
    if "NTP" in config:
        data["sonic-ntp:sonic-ntp"] = {"NTP": config["NTP"]}
    return data


print("| Ports | Source | Bytes | `gcu check`, ms | yanglint, ms | Times as long | Instructions, million | yanglint's |")
print("|---|---|---|---|---|---|---|---|")
for source in (False, True):
    for ports in sizes:
        with tempfile.TemporaryDirectory() as name:
            folder = pathlib.Path(name)
            for path in [*example.glob("*.yang"), example / "models.list"]:
                shutil.copy(path, folder)
            config = start_of(ports)
            if source:
                config["NTP"] = {"global": {"src_intf": f"Ethernet{4 * (ports - 1)}"}}
            (folder / "config_db.json").write_text(json.dumps(config))
            (folder / "data.json").write_text(json.dumps(data_of(config)))
            mine = [program, "check"]
            models = (example / "models.list").read_text().split()
            theirs = ["yanglint", "-t", "config", "-p", ".", *models, "data.json"]
            a, b = least_time(mine, folder, b"done\n", RUNS), least_time(theirs, folder, b"", RUNS)
            counts = [instructions(w, folder) if ports <= MOST_COUNTED else "" for w in (mine, theirs)]
            size = (folder / "config_db.json").stat().st_size
            word = "yes" if source else "no"
            print(f"| {ports} | {word} | {size} | {a:.1f} | {b:.1f} | {a / b:.2f} | {counts[0]} | {counts[1]} |", flush=True)
