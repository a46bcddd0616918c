#!/usr/bin/env python3
"""Times `gcu apply-patch PATCH --dry-run` on generated changes: the whole process, the least of some runs.

usage: bench/dry_run/run.py PROGRAM [PORTS..]     PROGRAM is the built gcu, as crates/gcu_cli/out/gcu_cli

The stored configuration and the change are those of bench/demo.py: 15 steps for eight ports. The models and the rules are
those of the example folder.
"""
import json, pathlib, resource, shutil, subprocess, sys, tempfile, time

sys.dont_write_bytecode = True
sys.path.insert(0, str(pathlib.Path(__file__).resolve().parent.parent))
from demo import change_of, start_of

example = pathlib.Path(__file__).resolve().parent.parent.parent / "crates" / "gcu_cli" / "data"
program = pathlib.Path(sys.argv[1]).resolve()
sizes = [int(word) for word in sys.argv[2:]] or [16, 32, 64, 128, 256]
RUNS = 3

print("| Ports | Steps | Seconds | A step, ms | MB |\n|---|---|---|---|---|")
for ports in sizes:
    with tempfile.TemporaryDirectory() as name:
        folder = pathlib.Path(name)
        for path in [*example.glob("*.yang"), example / "models.list", example / "rules.json"]:
            shutil.copy(path, folder)
        (folder / "config_db.json").write_text(json.dumps(start_of(ports)))
        (folder / "change.json").write_text(json.dumps(change_of(ports)))
        best = None
        for _ in range(RUNS):
            begun = time.perf_counter()
            words = [program, "apply-patch", "change.json", "--dry-run"]
            ran = subprocess.run(words, cwd=folder, capture_output=True)
            taken = time.perf_counter() - begun
            best = taken if best is None else min(best, taken)
        lines = ran.stdout.decode().splitlines()
        if ran.returncode:
            print(f"| {ports} | {lines[-1]} | {best:.3f} | | |", flush=True)
            continue
        steps = len(lines) - 2
        most = resource.getrusage(resource.RUSAGE_CHILDREN).ru_maxrss / 1024
        print(f"| {ports} | {steps} | {best:.3f} | {1000 * best / steps:.2f} | {most:.0f} |", flush=True)
