#!/usr/bin/env python3
"""Times `gcu demo SEED N` with the models of the example folder, the whole process.

usage: bench/demo/run.py PROGRAM [PORTS..]     PROGRAM is the built gcu, as crates/gcu_cli/out/gcu_cli
"""
import os, pathlib, subprocess, sys

example = pathlib.Path(__file__).resolve().parent.parent.parent / "crates" / "gcu_cli" / "data"
program = pathlib.Path(sys.argv[1]).resolve()
sizes = [int(word) for word in sys.argv[2:]] or [16, 32, 64, 128, 256]
RUNS = 3


def demo(ports):
    """The processor seconds of a run, its steps and its greatest memory in MB."""
    with subprocess.Popen([program, "demo", "7", str(ports)], cwd=example, stdout=subprocess.PIPE, text=True) as run:
        lines = run.stdout.read().splitlines()
        _, status, used = os.wait4(run.pid, 0)
        run.returncode = os.waitstatus_to_exitcode(status)
    if run.returncode or lines[-1] != "done":
        sys.exit(f"demo 7 {ports}: {lines}")
    steps = int(lines[-2].split()[1])
    return used.ru_utime + used.ru_stime, steps, used.ru_maxrss / 1000


print("| Ports | Steps | Seconds | A step, ms | MB |\n|---|---|---|---|---|")
for ports in sizes:
    seconds, steps, memory = min(demo(ports) for _ in range(RUNS))
    print(f"| {ports} | {steps} | {seconds:.3f} | {1000 * seconds / steps:.2f} | {memory:.0f} |", flush=True)
