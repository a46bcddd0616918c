#!/usr/bin/env python3
"""Times each box alone at the start of a demonstration: a generator by the moves that it gives, an extender and a rule
by all listed moves.

usage: bench/boxes/run.py           runs the program by `rt try`, with the checks that this puts in
       bench/boxes/run.py FOLDER    only writes the program into an empty folder, to be built and run in another way
"""
import pathlib, sys

here = pathlib.Path(__file__).resolve().parent
sys.path.insert(0, str(here.parent))
import program

USES = ("host_core conf_doc yang_text yang_model move_core move_gen move_extend move_rules recheck move_lists gcu_demo "
        "anyhow")
program.bench("boxes_bench", here / "main.rt.txt", USES, sys.argv[1:])
