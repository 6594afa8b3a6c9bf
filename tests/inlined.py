#!/usr/bin/env python3
"""The compiled library: the quick test of a string is part of the check of a record, and what decides where it fails is called. And the loop that
decides on UTF-8 stands by itself, so that code points are counted only where their number is asked for. And what the proof rules out is not tested.

LLVM inlines by size, and by hints at what is called (`any_string_at`, `is_run`); docs/DECISIONS.md, 4.16 and 2.7, says what hangs on it.
"""
import re
import shutil
import subprocess
import sys

from checklist import Skip, run
from header import LIBRARY

QUICK = {"record_check::Payload::string_at", "record_check::Payload::option_at", "record_check::Payload::is_plain_at",
         "record_check::ruler::Ruler::is_plain", "record_check::ruler::is_clear"}
OTHERWISE = "record_check::Payload::any_string_at"
# What answers the number of code points: in a caller that drops the number LLVM leaves the counting out, where these stand in the caller.
COUNTING = {"utf8::check", "utf8::check_run"}
DECIDING = "utf8::is_run"


def functions(root):
    """The names of the functions that stand by themselves in the library: each has a section of its own."""
    if not (root / LIBRARY).exists():
        raise Skip(f"{LIBRARY} is not built; `make lib` builds it")
    return {name.decode() for name in re.findall(rb"\.text\.([^\0]+)\0", (root / LIBRARY).read_bytes())}


def quick(root):
    """The functions of the quick test stand in their callers. What decides where it fails stands by itself, so that theirs would be seen."""
    found = functions(root)
    if OTHERWISE not in found:
        yield f"{OTHERWISE} is inlined, or {LIBRARY} does not show its functions"
    yield from (f"{name} is called, and not inlined" for name in sorted(found & QUICK))


def uncounted(root):
    """The functions that answer a number of code points stand in their callers, and the loop that says yes or no by itself."""
    found = functions(root)
    if DECIDING not in found:
        yield f"{DECIDING} is inlined into what counts, or {LIBRARY} does not show its functions"
    yield from (f"{name} is called, and counts for callers that ask for yes or no" for name in sorted(found & COUNTING))


def untested(root):
    """No function has a trap: a test of what the proof rules out, as of a part's length, would end in one (docs/TRUST.md)."""
    functions(root)
    if not shutil.which("objdump"):
        raise Skip("objdump is not on this machine")
    rows = subprocess.run(["objdump", "-d", "--no-show-raw-insn", root / LIBRARY], stdout=subprocess.PIPE, text=True, check=True).stdout
    for part in re.split(r"^[0-9a-f]+ (?=<)", rows, flags=re.M)[1:]:
        if re.search(r"\tud2\b", part):
            yield f"{part.split('>:')[0][1:]} has a trap"


CHECKS = {"the quick test of strings is inlined": quick, "nothing is counted where yes or no is asked": uncounted,
          "what the proof rules out is not tested": untested}

if __name__ == "__main__":
    sys.exit(run("inlined", CHECKS))
