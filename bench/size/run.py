#!/usr/bin/env python3
"""Times `gcu apply-patch --dry-run` on big configurations: thousands of access rules, and a switch of 256 ports.

usage: bench/size/run.py PROGRAM [--rules N,..] [--instructions] [OTHER..]
PROGRAM is the built gcu, as crates/gcu_cli/out/gcu_cli; OTHER is a program that takes the same words, measured in turn with it.
A spent budget is measured by what one more visited configuration costs. With --instructions valgrind counts them.
"""
import os, pathlib, re, subprocess, sys, tempfile
import folders, switches

example = pathlib.Path(__file__).resolve().parent.parent.parent / "crates" / "gcu_cli" / "data"
RULE_PORTS, CHANGES, SWITCH_PORTS, RUNS = 64, 400, 256, 3
SPENT = {"must": (10, 50), "lanes of all": (10, 30)}

words = sys.argv[1:]
is_counted = "--instructions" in words
words = [word for word in words if word != "--instructions"]
sizes = [4000, 16000]
if "--rules" in words:
    at = words.index("--rules")
    sizes = [int(word) for word in words[at + 1].split(",")]
    del words[at:at + 2]
programs = [pathlib.Path(word).resolve() for word in words]


def count(program, folder, options):
    """The million instructions of a dry run, and what it prints."""
    line = ["valgrind", "--tool=callgrind", "--callgrind-out-file=/dev/null", program, "apply-patch", "p.json", "--dry-run"]
    ran = subprocess.run(line + options, cwd=folder, capture_output=True)
    return int(re.search(rb"Collected : (\d+)", ran.stderr)[1]) / 1e6, 0, ran.stdout


def clock(program, folder, options):
    """The processor seconds of a dry run, its greatest memory in MB, and what it prints."""
    line = [program, "apply-patch", "p.json", "--dry-run", *options]
    started = subprocess.Popen(line, cwd=folder, stdout=subprocess.PIPE)
    told = started.stdout.read()
    _, _, used = os.wait4(started.pid, 0)
    return used.ru_utime + used.ru_stime, used.ru_maxrss / 1000, told


def measure(program, folder, options):
    if is_counted:
        return count(program, folder, options)
    return min(clock(program, folder, options) for _ in range(RUNS))


def cell(value, memory):
    return f"{value:.1f}" if is_counted else f"{1000 * value:.1f} ms | {memory:.0f} MB"


def row(name, found):
    """A line of the table: of each program what was measured, and whether all print the same."""
    same = "yes" if len({told for _, _, told in found}) == 1 else "no"
    print(f"| {name} | {' | '.join(cell(value, memory) for value, memory, _ in found)} | {same} |", flush=True)


def plan(name, make):
    with tempfile.TemporaryDirectory() as parent:
        folder = pathlib.Path(parent) / "row"
        make(folder)
        row(name, [measure(program, folder, []) for program in programs])


def spent(kind, few, many):
    """What a visited configuration costs, where the search spends any budget."""
    with tempfile.TemporaryDirectory() as parent:
        folder = pathlib.Path(parent) / "row"
        switches.make(folder, example, SWITCH_PORTS, kind)
        found = []
        for program in programs:
            first, _, _ = measure(program, folder, ["--budget", str(few)])
            last, memory, told = measure(program, folder, ["--budget", str(many)])
            found.append(((last - first) / (many - few), memory, told))
        row(f"{SWITCH_PORTS} ports: {kind}, a visited configuration", found)


heads = " | ".join(program.name if is_counted else f"{program.name} | MB" for program in programs)
columns = len(programs) if is_counted else 2 * len(programs)
print(f"| Work | {heads} | Same |\n|---|{'---|' * columns}---|")
for rules in sizes:
    for kind in folders.KINDS:
        changes = 1 if kind == "lanes" else CHANGES
        plan(f"{rules} rules: {changes} {kind}",
             lambda folder: folders.make(folder, example, RULE_PORTS, rules, changes, kind))
for kind in switches.PATCHES:
    if kind not in SPENT:
        plan(f"{SWITCH_PORTS} ports: {kind}", lambda folder: switches.make(folder, example, SWITCH_PORTS, kind))
for kind, (few, many) in SPENT.items():
    spent(kind, few, many)
