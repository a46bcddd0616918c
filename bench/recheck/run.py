#!/usr/bin/env python3
"""Times rule 1 alone: a whole check of each result beside the rule that checks again only what a change may turn.

usage: bench/recheck/run.py           runs the program by `rt try`, with the checks that this puts in
       bench/recheck/run.py FOLDER    only writes the program into an empty folder, to be built and run in another way
"""
import pathlib, sys

here = pathlib.Path(__file__).resolve().parent
sys.path.insert(0, str(here.parent))
import program

USES = "host_core conf_doc yang_text yang_model conf_check move_core recheck gcu_demo anyhow"
program.bench("recheck_bench", here / "main.rt.txt", USES, sys.argv[1:])
