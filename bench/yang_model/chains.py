#!/usr/bin/env python3
"""Times the reading and compiling of models in which much stands on much, by `gcu check` of a configuration without tables:
whole processes, the least processor time (user and system) of some runs, and the greatest memory of one.

usage: bench/yang_model/chains.py PROGRAM [SECONDS]     PROGRAM is the built gcu; a run that takes more SECONDS is told as such

A row is a module of so many tables, lists, leaves or typedefs.
"""
import os, pathlib, subprocess, sys, tempfile

program = pathlib.Path(sys.argv[1]).resolve()
most, RUNS = float(sys.argv[2]) if len(sys.argv) > 2 else 120, 3
HEAD, PLAIN = ["module m {", '  namespace "n"; prefix m;'], ["  container m { container T { list L { key k; leaf k { type string; } } } }", "}"]
TABLE = ["  container m { container T {", "    list L { key k; leaf k { type string; } }"]


def leafref(path):
    return f'type leafref {{ path "{path}"; }}'


def tables_in_a_row(n):
    """A key leaf of each table refers to that of the next one."""
    types = [leafref(f"/m/T{i + 1}/L/k") for i in range(n - 1)] + ["type string;"]
    return HEAD + ["  container m {"] + [f"    container T{i} {{ list L {{ key k; leaf k {{ {t} }} }} }}" for i, t in enumerate(types)] + ["  }", "}"]


def lists_of_a_table(n):
    """A leaf of each list refers to the list before."""
    paths = ["/m/T/L/k"] + [f"/m/T/L{i}/k" for i in range(n - 1)]
    lists = [f'    list L{i} {{ key "k j"; leaf k {{ type string; }} leaf j {{ {leafref(p)} }} }}' for i, p in enumerate(paths)]
    return HEAD + TABLE + lists + ["  } }", "}"]


def leaves_before_the_key_leaf(n):
    """Each leaf of a list refers to its key leaf, the last one."""
    leaves = [f'    leaf l{i} {{ {leafref("/m/T/L/k")} }}' for i in range(n)]
    return HEAD + ["  container m { container T { list L { key k;"] + leaves + ["    leaf k { type string; } } } }", "}"]


def typedefs(n, last):
    return [f"  typedef t{i} {{ type t{i + 1}; }}" for i in range(n - 1)] + [f"  typedef t{n - 1} {{ {last} }}"]


def typedefs_in_a_circle(n):
    return HEAD + typedefs(n, "type t0;") + PLAIN


def a_circle_on_one_line(n):
    return [" ".join(typedefs_in_a_circle(n))]


def typedefs_before_a_circle(n):
    """The last typedef stands on itself alone."""
    return HEAD + typedefs(n, f"type t{n - 1};") + PLAIN


def typedefs_before_a_union(n):
    return HEAD + typedefs(n, "type union { type string; }") + PLAIN


def unions_that_double(n):
    """Each typedef is a union of the one before, twice; no leaf has the type."""
    unions = ["  typedef t0 { type union { type uint8; type boolean; } }"]
    unions += [f"  typedef t{i} {{ type union {{ type t{i - 1}; type t{i - 1}; }} }}" for i in range(1, n)]
    return HEAD + unions + PLAIN


def the_same_with_a_leaf(n):
    end = f"  container m {{ container T {{ list L {{ key k; leaf k {{ type string; }} leaf f {{ type t{n - 1}; }} }} }} }}"
    return unions_that_double(n)[:-2] + [end, "}"]


ROWS = [
    (tables_in_a_row, (200, 400, 800)),
    (lists_of_a_table, (1300, 2600, 10000)),
    (leaves_before_the_key_leaf, (3000, 15000)),
    (typedefs_in_a_circle, (1500, 3000, 28000)),
    (a_circle_on_one_line, (1500, 14000)),
    (typedefs_before_a_circle, (1500, 3000)),
    (typedefs_before_a_union, (3000, 28000)),
    (unions_that_double, (16, 18, 1000)),
    (the_same_with_a_leaf, (12, 14, 16)),
]


def run(folder):
    """The processor time of one run in seconds, or None where it takes too long; its memory in MB; and what it says."""
    started = subprocess.Popen([program, "check"], cwd=folder, stdout=subprocess.PIPE, stderr=subprocess.DEVNULL,
                               preexec_fn=lambda: __import__("resource").setrlimit(0, (int(most), int(most) + 1)))
    told = started.stdout.read().decode()
    _, status, used = os.wait4(started.pid, 0)
    started.returncode = os.waitstatus_to_exitcode(status)
    return (used.ru_utime + used.ru_stime if started.returncode >= 0 else None), used.ru_maxrss // 1024, told.strip()


print("| Models | Number | Bytes | `gcu check` | MB | Answer |\n|---|---|---|---|---|---|")
for make, numbers in ROWS:
    for n in numbers:
        with tempfile.TemporaryDirectory() as name:
            folder = pathlib.Path(name)
            (folder / "m.yang").write_text("\n".join(make(n)) + "\n")
            (folder / "models.list").write_text("m.yang\n")
            (folder / "config_db.json").write_text("{}")
            runs = [run(folder)]
            while len(runs) < RUNS and runs[0][0] is not None and runs[0][0] < 10:
                runs.append(run(folder))
            seconds = f"over {most:.0f} s" if runs[0][0] is None else f"{min(r[0] for r in runs):.3f} s"
            size = (folder / "m.yang").stat().st_size
            print(f"| {make.__name__.replace('_', ' ')} | {n:,} | {size:,} | {seconds} | {max(r[1] for r in runs)} | {runs[0][2]} |", flush=True)
