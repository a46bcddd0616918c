#!/usr/bin/env python3
"""Times `gcu preview` with patches of 250, 500 and 1,000 operations on a configuration of 1 MB, beside
Python's jsonpatch on the same files, the growth on 4 MB, and the two hard cases of
the limits: the least processor time of five runs.

usage: run.py PROGRAM     PROGRAM is the built gcu, as crates/gcu_cli/out/gcu_cli
"""
import json, os, random, resource, subprocess, sys, tempfile

def configuration(bytes_wanted):
    ports = {}
    size = 0
    i = 0
    while size < bytes_wanted:
        entry = {"admin_status": "up", "lanes": ",".join(str(4 * i + k) for k in range(4)), "speed": "100000",
                 "description": "port %d" % i}
        ports["Ethernet%d" % (4 * i)] = entry
        size += 40 + sum(len(k) + len(v) + 14 for k, v in entry.items())
        i += 1
    return {"PORT": ports, "VLAN": {"Vlan100": {"vlanid": "100"}}}

def patch(config, count, seed):
    pick = random.Random(seed)
    names = sorted(config["PORT"])
    operations = []
    for n in range(count):
        port = "/PORT/" + pick.choice(names)
        operations.append([
            {"op": "replace", "path": port + "/speed", "value": "40000"},
            {"op": "add", "path": port + "/mtu", "value": "9100"},
            {"op": "add", "path": "/VLAN/Vlan%d" % (1000 + n), "value": {"vlanid": str(1000 + n)}},
            {"op": "copy", "from": port, "path": "/PORT/Copy%d" % n},
            {"op": "test", "path": "/VLAN/Vlan100/vlanid", "value": "100"},
        ][n % 5])
    return operations

def processor_seconds():
    """Of this process and of the children that have ended: the clock of a shared machine tells of others too."""
    used = [resource.getrusage(who) for who in (resource.RUSAGE_SELF, resource.RUSAGE_CHILDREN)]
    return sum(each.ru_utime + each.ru_stime for each in used)

def seconds(work, runs=5):
    best = None
    for _ in range(runs):
        start = processor_seconds()
        work()
        spent = processor_seconds() - start
        best = spent if best is None else min(best, spent)
    return best

def main():
    program = os.path.abspath(sys.argv[1])
    with tempfile.TemporaryDirectory() as folder:
        def preview(name):
            return subprocess.run([program, "preview", name], cwd=folder, stdout=subprocess.PIPE)
        config = configuration(1 << 20)
        text = json.dumps(config, indent=2, sort_keys=True) + "\n"
        open(os.path.join(folder, "config_db.json"), "w").write(text)
        open(os.path.join(folder, "empty.json"), "w").write("[]")
        print("configuration: %d bytes" % len(text))
        print("operations  gcu preview  jsonpatch (with reading and printing)")
        for count in (0, 250, 500, 1000):
            operations = patch(config, count, 7)
            name = "p%d.json" % count
            open(os.path.join(folder, name), "w").write(json.dumps(operations))
            done = preview(name)
            assert done.returncode == 0, (count, done.stdout[-80:])
            ours = seconds(lambda: preview(name))
            try:
                import jsonpatch
                def theirs_once():
                    document = json.loads(open(os.path.join(folder, "config_db.json")).read())
                    result = jsonpatch.apply_patch(document, operations)
                    return json.dumps(result, indent=2, sort_keys=True)
                expected = theirs_once() + "\ndone\n"
                assert done.stdout.decode() == expected, "another result than jsonpatch"
                theirs = "%8.3f s" % seconds(theirs_once)
            except ImportError:
                theirs = "       -"
            print("%10d  %8.3f s  %s" % (count, ours, theirs))
        doublings = [{"op": "add", "path": "/A", "value": {"k": {"f": "x" * 1000}}}]
        for n in range(30):
            doublings.append({"op": "copy", "from": "/A", "path": "/A/k%d" % n})
        open(os.path.join(folder, "doublings.json"), "w").write(json.dumps(doublings))
        spent = seconds(lambda: preview("doublings.json"))
        print("30 doublings: %s in %.3f s" % (preview("doublings.json").stdout.decode().strip()[-60:], spent))
        big = configuration(4 << 20)
        open(os.path.join(folder, "config_db.json"), "w").write(json.dumps(big, indent=2, sort_keys=True) + "\n")
        names = sorted(big["PORT"])
        for count in (0, 4000, 8000, 16000):
            operations = [{"op": "add", "path": "/PORT/%s/mtu" % names[(7919 * n) % len(names)], "value": "9100"} for n in range(count)]
            open(os.path.join(folder, "many.json"), "w").write(json.dumps(operations, separators=(",", ":")))
            print("%d operations on 4 MB: %.3f s" % (count, seconds(lambda: preview("many.json"))))
        operations, size, n = [], 2, 0
        while True:
            op = json.dumps({"op": "add", "path": "/PORT/%s/mtu" % names[(7919 * n) % len(names)], "value": "9100"}, separators=(",", ":"))
            if size + len(op) + 1 > 1048576:
                break
            operations.append(op)
            size += len(op) + 1
            n += 1
        open(os.path.join(folder, "full.json"), "w").write("[" + ",".join(operations) + "]")
        done = preview("full.json")
        print("%d small operations on 4 MB: status %d in %.3f s" % (n, done.returncode, seconds(lambda: preview("full.json"), 1)))

main()
