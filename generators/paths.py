"""Finds the modules of other folders for the scripts of this one: imported in front of them."""

import sys
from pathlib import Path

TOP = Path(__file__).resolve().parent.parent
sys.dont_write_bytecode = True
sys.path[:0] = [str(TOP), str(TOP / "trials")]
