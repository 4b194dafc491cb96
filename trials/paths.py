"""Finds the modules of other folders for the scripts of this one: imported in front of them."""

import sys
from pathlib import Path

TOP = Path(__file__).resolve().parent.parent
HERE = TOP / "trials"
INDEPENDENT = TOP / "independent"
sys.dont_write_bytecode = True
sys.path[:0] = [str(TOP), str(TOP / "build"), str(INDEPENDENT)]
