#!/usr/bin/env python3
"""Times `gcu preview` with an empty patch beside a native program that reads the same file with serde_json
and writes it again, at 1 MB and 4 MB, in turn and in one run: the least processor time of each, and the most memory.

usage: run.py PROGRAM [RUNS]     PROGRAM is the built gcu, as crates/gcu_cli/out/gcu_cli

The native program is built from native/ by cargo, offline, over the crates of Debian's librust-serde-json-dev.
"""
import json, os, pathlib, shutil, subprocess, sys, tempfile

def configuration(bytes_wanted):
    ports, size, i = {}, 0, 0
    while size < bytes_wanted:
        entry = {"admin_status": "up", "lanes": ",".join(str(4 * i + k) for k in range(4)), "speed": "100000",
                 "description": "port %d" % i}
        ports["Ethernet%d" % (4 * i)] = entry
        size += 40 + sum(len(k) + len(v) + 14 for k, v in entry.items())
        i += 1
    return {"PORT": ports, "VLAN": {"Vlan100": {"vlanid": "100"}}}

def native(folder):
    source = pathlib.Path(__file__).resolve().parent / "native"
    shutil.copytree(source, folder / "native")
    registry = ["--config", 'source.crates-io.replace-with="debian"',
                "--config", 'source.debian.directory="/usr/share/cargo/registry"']
    subprocess.run(["cargo", *registry, "build", "--release", "--offline", "--quiet"], cwd=folder / "native", check=True)
    return folder / "native/target/release/rewrite"

def seconds(words, folder, output):
    """The processor time of a run, with its start: on a shared machine the clock tells of the others too."""
    with open(output, "wb") as out:
        started = subprocess.Popen(words, cwd=folder, stdout=out)
        _, status, used = os.wait4(started.pid, 0)
        started.returncode = os.waitstatus_to_exitcode(status)
        assert started.returncode == 0, words
        return used.ru_utime + used.ru_stime

def most_memory(words, folder):
    """In MB, of a process of its own."""
    code = ("import resource, subprocess, sys; subprocess.run(sys.argv[1:], stdout=subprocess.DEVNULL);"
            "print(resource.getrusage(resource.RUSAGE_CHILDREN).ru_maxrss)")
    return int(subprocess.run([sys.executable, "-c", code, *words], cwd=folder, stdout=subprocess.PIPE).stdout) / 1024

def main():
    program = os.path.abspath(sys.argv[1])
    runs = int(sys.argv[2]) if len(sys.argv) > 2 else 15
    with tempfile.TemporaryDirectory() as name:
        folder = pathlib.Path(name)
        ours, theirs = [program, "preview", "empty.json"], [str(native(folder)), "config_db.json"]
        (folder / "empty.json").write_text("[]")
        print("    bytes  gcu preview  native  times as long  MB  native MB")
        for size in (1 << 20, 4 << 20):
            text = json.dumps(configuration(size), indent=2, sort_keys=True) + "\n"
            (folder / "config_db.json").write_text(text)
            found = {"ours": [], "theirs": []}
            for _ in range(runs):
                found["ours"].append(seconds(ours, folder, folder / "ours"))
                found["theirs"].append(seconds(theirs, folder, folder / "theirs"))
            assert (folder / "ours").read_text() == text + "done\n" and (folder / "theirs").read_text() == text
            mine, other = min(found["ours"]), min(found["theirs"])
            print("%9d  %9.4f s  %.4f s  %8.2f  %8.1f  %8.1f"
                  % (len(text), mine, other, mine / other, most_memory(ours, folder), most_memory(theirs, folder)))

main()
