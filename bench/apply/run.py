#!/usr/bin/env python3
"""Times `gcu apply-patch PATCH` on generated changes, the whole process, and counts the syncs of its steps.

usage: bench/apply/run.py PROGRAM [PORTS..]     PROGRAM is the built gcu, as crates/gcu_cli/out/gcu_cli

The stored configuration and the change are those of bench/demo.py: 15 steps for eight ports. A dry run of the same change
is timed beside it, so that the difference is the work on the disk. Syncs are counted by strace, where it is there.
"""
import json, pathlib, re, shutil, subprocess, sys, tempfile, time

sys.dont_write_bytecode = True
sys.path.insert(0, str(pathlib.Path(__file__).resolve().parent.parent))
from demo import change_of, start_of

example = pathlib.Path(__file__).resolve().parent.parent.parent / "crates" / "gcu_cli" / "data"
program = pathlib.Path(sys.argv[1]).resolve()
sizes = [int(word) for word in sys.argv[2:]] or [16, 64, 256]
RUNS = 3


def fill(folder, ports):
    for path in [*example.glob("*.yang"), example / "models.list", example / "rules.json"]:
        shutil.copy(path, folder)
    (folder / "config_db.json").write_text(json.dumps(start_of(ports)))
    (folder / "change.json").write_text(json.dumps(change_of(ports)))


def run(ports, *options, before=()):
    """The seconds of a run in a folder of its own, and its lines."""
    with tempfile.TemporaryDirectory() as name:
        folder = pathlib.Path(name)
        fill(folder, ports)
        begun = time.perf_counter()
        ran = subprocess.run([*before, program, "apply-patch", "change.json", *options], cwd=folder, capture_output=True)
        taken = time.perf_counter() - begun
        lines = ran.stdout.decode().splitlines()
        assert ran.returncode == 0 and lines[-1] == "done", (ran.returncode, lines[-1:])
        return taken, lines


def syncs(ports):
    """How many calls of a run sync a file or the folder."""
    if not shutil.which("strace"):
        return None
    with tempfile.NamedTemporaryFile("r") as trace:
        run(ports, before=["strace", "-f", "-qq", "-o", trace.name, "-e", "trace=fsync,fdatasync,sync_file_range,syncfs,sync"])
        return len(re.findall(r"sync\w*\(", trace.read()))


print("| Ports | Steps | Seconds | Dry run | Disk, ms a step | Syncs a step |\n|---|---|---|---|---|---|")
for ports in sizes:
    done = min(run(ports) for _ in range(RUNS))
    dry = min(run(ports, "--dry-run") for _ in range(RUNS))
    steps = sum(line.startswith("applied ") for line in done[1])
    count = syncs(ports)
    each = f"{count / steps:.1f}" if count is not None else ""
    disk = 1000 * (done[0] - dry[0]) / steps
    print(f"| {ports} | {steps} | {done[0]:.3f} | {dry[0]:.3f} | {disk:.2f} | {each} |", flush=True)
