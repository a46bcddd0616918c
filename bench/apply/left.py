#!/usr/bin/env python3
"""Times a small change of the example folder that first folds the step files which another change left, and beside it
`gcu check` of the same folder, which only reads them. So the difference is the work on the disk.

usage: bench/apply/left.py PROGRAM [STEPS..]     PROGRAM is the built gcu, as crates/gcu_cli/out/gcu_cli
"""
import json, pathlib, shutil, subprocess, sys, tempfile, time

example = pathlib.Path(__file__).resolve().parent.parent.parent / "crates" / "gcu_cli" / "data"
program = pathlib.Path(sys.argv[1]).resolve()
sizes = [int(word) for word in sys.argv[2:]] or [500, 5000]
RUNS = 3


def fill(folder, steps):
    for path in example.iterdir():
        shutil.copy(path, folder)
    for number in range(1, steps + 1):
        value = "down" if number % 2 else "up"
        patch = [{"op": "replace", "path": "/PORT/Ethernet4/admin_status", "value": value}]
        (folder / f"step.{number:06}").write_text(json.dumps(patch, separators=(",", ":")) + "\n")


def seconds(folder, *words):
    begun = time.perf_counter()
    ran = subprocess.run([program, *words], cwd=folder, capture_output=True)
    taken = time.perf_counter() - begun
    assert ran.returncode == 0 and ran.stdout.endswith(b"done\n"), (ran.returncode, ran.stdout[-200:])
    return taken


def run(steps):
    """The seconds of a check and of a change, which leaves no step file."""
    with tempfile.TemporaryDirectory() as name:
        folder = pathlib.Path(name)
        fill(folder, steps)
        taken = seconds(folder, "check"), seconds(folder, "apply-patch", "add_vlan.json")
        assert not list(folder.glob("step.*"))
        return taken


print("| Steps left | Check, s | Change, s | Disk, ms a step |\n|---|---|---|---|")
for steps in sizes:
    check, change = map(min, zip(*(run(steps) for _ in range(RUNS))))
    print(f"| {steps} | {check:.2f} | {change:.2f} | {1000 * (change - check) / steps:.2f} |", flush=True)
