"""Trials of the built program, and of what users copy and operators run: `python3 -m trials`.

`lib` has what trials share, `unit` tests that need no program, `gate` the cases that each run of
the gate tries on the built program, and `long` scripts that put load and faults on it.
"""
import sys
from pathlib import Path

TOP = Path(__file__).resolve().parent.parent
# The client package and the tool of operators are used as they stand in the tree.
sys.path[:0] = [str(TOP / "clients" / "python" / "src"), str(TOP / "contrib" / "ctl")]
