"""Puts the folders of tools/ that have modules on the path of the command that imports this first."""
import os
import sys

sys.dont_write_bytecode = True
TOOLS = os.path.dirname(os.path.realpath(__file__))
sys.path += [f"{TOOLS}/{it}" for it in ("proving", "planting", "dictionaries", "reading", "comparing")]
