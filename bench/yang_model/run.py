#!/usr/bin/env python3
"""Times the reading and compiling of models, by `gcu check` of a configuration without tables, beside Debian's yanglint on the
same files: whole processes, the least processor time (user and system) of some runs.

usage: bench/yang_model/run.py PROGRAM     PROGRAM is the built gcu, as crates/gcu_cli/out/gcu_cli

The files are those of the example folder, and one generated module of 128 kB to 1 MB: of leaves with a type of their own, of
typedefs that stand on one another in twos, of values of one enumeration, of imports, and of lists whose leaf refers to the
list before. yanglint isn't run on a module whose smaller one took it a second. Where valgrind is there, the instructions of one run stand beside the times.
"""
import pathlib, shutil, sys, tempfile

sys.dont_write_bytecode = True
sys.path.insert(0, str(pathlib.Path(__file__).resolve().parent.parent))
from demo import instructions, least_time

example = pathlib.Path(__file__).resolve().parent.parent.parent / "crates" / "gcu_cli" / "data"
program = pathlib.Path(sys.argv[1]).resolve()
SIZES, RUNS, MOST_MS = (1 << 17, 1 << 18, 1 << 19, 1 << 20), 7, 1000
LIST = "    list L { key k; leaf k { type string; }"


def leaves(i):
    return [f"    leaf speed-{i} {{ type string {{ length \"1..64\"; pattern '[0-9]+(,[0-9]+)*'; }} }}"]


def typedefs(i):
    base = f"t{i - 1}" if i % 2 else "uint32"
    return [f'  typedef t{i} {{ type {base} {{ range "{i % 2}..{4000 - i % 2}"; }} }}']


def enums(i):
    return [f"      enum value-{i};"]


def imports(i):
    return [f"  import ietf-inet-types {{ prefix p{i}; }}"]


def lists(i):
    path = f"/m/T/L{i - 1}/k" if i else "/m/T/L/k"
    return [f'    list L{i} {{ key "k j"; leaf k {{ type string; }} leaf j {{ type leafref {{ path "{path}"; }} }} }}']


HEAD, TABLE = ["module m {", '  namespace "n"; prefix m;'], ["  container m { container T {"]
KINDS = {
    "leaves": (leaves, HEAD + TABLE + [LIST], ["    }", "  } }", "}"]),
    "typedefs": (typedefs, HEAD, TABLE + [LIST + " leaf f { type t0; } }", "  } }", "}"]),
    "enums": (enums, HEAD + TABLE + [LIST, "    leaf f { type enumeration {"], ["    } } }", "  } }", "}"]),
    "imports": (imports, HEAD, TABLE + [LIST + " leaf f { type p0:ip-address; } }", "  } }", "}"]),
    "lists": (lists, HEAD + TABLE + [LIST + " }"], ["  } }", "}"]),
}


def module(kind, most):
    line, head, end = KINDS[kind]
    size = sum(len(text) + 1 for text in head + end)
    body, i = [], 0
    while True:
        more = line(i)
        size += sum(len(text) + 1 for text in more)
        if size > most:
            return "\n".join(head + body + end) + "\n"
        body += more
        i += 1


def row(what, folder, names, with_theirs):
    """Prints a row, and tells yanglint's time where it was taken."""
    (folder / "models.list").write_text("".join(name + "\n" for name in names))
    (folder / "config_db.json").write_text("{}")
    size = sum((folder / name).stat().st_size for name in names)
    mine, theirs = [program, "check"], ["yanglint", "-p", ".", *names]
    a, count = least_time(mine, folder, b"done\n", RUNS), instructions(mine, folder)
    b = least_time(theirs, folder, b"", RUNS) if with_theirs else None
    told = f"{b:.1f} | {a / b:.2f}" if b else "not run |"
    print(f"| {what} | {size} | {a:.1f} | {told} | {count} |", flush=True)
    return b


print("| Models | Bytes | `gcu check`, ms | yanglint, ms | Times as long | Instructions, million |\n|---|---|---|---|---|---|")
with tempfile.TemporaryDirectory() as name:
    folder = pathlib.Path(name)
    for path in example.glob("*.yang"):
        shutil.copy(path, folder)
    row("the example folder's", folder, (example / "models.list").read_text().split(), True)
for kind in KINDS:
    theirs = 0
    for size in SIZES:
        with tempfile.TemporaryDirectory() as name:
            folder = pathlib.Path(name)
            (folder / "m.yang").write_text(module(kind, size))
            theirs = row(kind, folder, ["m.yang"], theirs is not None and theirs < MOST_MS)
