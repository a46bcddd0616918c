#!/usr/bin/env python3
"""Times the search alone, from the start of a demonstration to its goal.

usage: bench/plan_search/run.py           runs the program by `rt try`, with the checks that this puts in
       bench/plan_search/run.py FOLDER    only writes the program into an empty folder, to be built and run in another way
"""
import pathlib, sys

here = pathlib.Path(__file__).resolve().parent
sys.path.insert(0, str(here.parent))
import program

USES = ("host_core conf_doc yang_text yang_model move_core move_gen move_extend move_rules recheck plan_search gcu_demo "
        "anyhow")
program.bench("search_bench", here / "main.rt.txt", USES, sys.argv[1:])
