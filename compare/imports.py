"""Lets the programs of this folder find those of tests/: the reading of calls, the table of numbers, and the list of checks."""
import pathlib
import sys

TESTS = pathlib.Path(__file__).resolve().parent.parent / "tests"
sys.path[1:1] = [str(TESTS), str(TESTS / "calls")]
