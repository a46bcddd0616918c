#!/usr/bin/env python3
"""Times `gcu check-plan PATCH PLAN` beside the dry run that made the plan: the whole processes, the least processor time
(user and system) of some runs, and by callgrind, where it is there, the millions of instructions of one.

usage: bench/check_plan/run.py PROGRAM [PORTS..]     PROGRAM is the built gcu, as crates/gcu_cli/out/gcu_cli

The changes are those of bench/demo.py (15 steps for eight ports, and the speed of all ports), the speed and the MTU of all ports
of a switch of 256 ports and 400 rules that come beside 4,000 (bench/size), and the changes of examples/leaf32. The models and the
rules are those of the example folder or of leaf32.
"""
import json, pathlib, resource, shutil, subprocess, sys, tempfile

sys.dont_write_bytecode = True
bench = pathlib.Path(__file__).resolve().parent.parent
sys.path[:0] = [str(bench), str(bench / "size")]
from demo import change_of, instructions, speeds_of, start_of
import folders, switches

example = bench.parent / "crates" / "gcu_cli" / "data"
leaf = bench.parent / "examples" / "leaf32"
program = pathlib.Path(sys.argv[1]).resolve()
sizes = [int(word) for word in sys.argv[2:]] or [16, 64, 256]
RUNS = 3


def timed(folder, *words):
    """The output, and the least processor time of the runs."""
    best = None
    for _ in range(RUNS):
        before = resource.getrusage(resource.RUSAGE_CHILDREN)
        ran = subprocess.run([program, *words], cwd=folder, capture_output=True, text=True)
        after = resource.getrusage(resource.RUSAGE_CHILDREN)
        taken = after.ru_utime + after.ru_stime - before.ru_utime - before.ru_stime
        best = taken if best is None else min(best, taken)
    return ran.stdout, best


def row(folder, what, patch):
    """A row of a change of the folder."""
    search, check = ("apply-patch", patch, "--dry-run"), ("check-plan", patch, "saved.plan")
    plan, searched = timed(folder, *search)
    (folder / "saved.plan").write_text(plan)
    said, checked = timed(folder, *check)
    steps = plan.split()[1]
    if said != f"yes {steps}\ndone\n":
        return f"| {what} | {said.splitlines()[-1]} | {searched:.3f} | {checked:.3f} | | | |"
    counts = [instructions([str(program), *words], folder) for words in (search, check)]
    return f"| {what} | {steps} | {searched:.3f} | {checked:.3f} | {checked / searched:.1f} | {counts[0]} | {counts[1]} |"


print("| Change | Steps | Dry run, seconds | Check, seconds | Times as long | Dry run, M | Check, M |\n" + "|---" * 7 + "|")
for ports in sizes:
    for kind, change in ("generated", change_of), ("speed of all", speeds_of):
        with tempfile.TemporaryDirectory() as name:
            folder = pathlib.Path(name)
            for path in [*example.glob("*.yang"), example / "models.list", example / "rules.json"]:
                shutil.copy(path, folder)
            (folder / "config_db.json").write_text(json.dumps(start_of(ports)))
            (folder / "change.json").write_text(json.dumps(change(ports)))
            print(row(folder, f"{ports} ports, {kind}", "change.json"), flush=True)
for kind in "speed", "mtu":
    with tempfile.TemporaryDirectory() as name:
        folder = pathlib.Path(name) / "switch"
        switches.make(folder, example, 256, kind)
        print(row(folder, f"switch of 256 ports, {kind} of all", "p.json"), flush=True)
for change in sorted((leaf / "changes").glob("*.json")):
    with tempfile.TemporaryDirectory() as name:
        folder = pathlib.Path(name) / "leaf"
        shutil.copytree(leaf, folder)
        print(row(folder, change.stem, f"changes/{change.name}"), flush=True)
with tempfile.TemporaryDirectory() as name:
    folder = pathlib.Path(name) / "rules"
    folders.make(folder, example, 64, 4000, 400, "add")
    print(row(folder, "400 rules beside 4,000", "p.json"), flush=True)
