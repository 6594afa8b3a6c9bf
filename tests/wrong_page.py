#!/usr/bin/env python3
"""Writes docs/WRONG.md: the wrong answers of tests/wrong and the edits of crates/*/must-fail, by crate and function.

    python3 -B tests/wrong_page.py

tests/pages.py sees that the page is what this script writes.
"""
import pathlib
import re
import sys

import wrong

PAGE = "docs/WRONG.md"

HEAD = """\
# Wrong answers

Written by `python3 -B tests/wrong_page.py` from the edits themselves; do not change it by hand.

What the contracts of docs/CLAIMS.md rule out. Each entry is a small change of the code, in the same form, after which the
function gives a wrong answer; the prover must refuse it because a fact fails.

- *Wrong answer*: what the changed function does. These stand in `tests/wrong`, a file for each crate, and are tried by
  `make wrong`, since each costs a check of its crate. Usually it is the function's own `ensures` that fails; where that is
  said, it is what a function that it calls requires (call), or the invariant of its loop (loop).
- *Must fail, because*, with a star: why an edit of `crates/*/must-fail`, named in brackets, is refused. `rt ci` tries these
  every time. An edit of a constant or of an enum is listed under its name, an edit of a definition under the definition.

A function that is not public is listed too: it is where the edit is made, and a public contract rests on it.
"""

# What an edit stands in, by the kind of its file: a function, a constant or an enum; a definition with its type.
HOLDERS = {
    ".rt": re.compile(r"^ *(?:pub(?:\(crate\))? )?(?:(?:extern \"C\" )?fn|const|enum) (\w+)", re.M),
    ".antt": re.compile(r"^ *(?:(?:pub|abbrev|unfoldable) )*(\S+) :(?= )", re.M),
}


def must_fail(root, crate):
    """What each must-fail edit of a crate stands in, its first line, and its name."""
    home = root / "crates" / crate
    for path in sorted((home / "must-fail").glob("*.edit")):
        text = path.read_text(encoding="utf-8")
        fact, file, old = (re.search(mark + r" (.*)", text, re.M).group(1) for mark in ("^#", "^file:", "^old:"))
        source = home / file
        before, found, _ = source.read_text(encoding="utf-8").partition(old)
        if not found:
            raise ValueError(f"{path.relative_to(root)}: not in {file}: {old}")
        holders = HOLDERS[source.suffix].findall(before + found)
        yield holders[-1], fact, path.stem


def crates(root):
    """The crates in crates.txt's order."""
    rows = (root / "crates.txt").read_text(encoding="utf-8").splitlines()
    return [row.split(":")[0].split()[0] for row in rows if ":" in row.partition("#")[0]]


def table(root, crate):
    """The rows of a crate, one for each function, in the order of the edits."""
    rows = {}
    if (root / f"tests/wrong/{crate}.txt").exists():
        for edit in wrong.edits(crate, root):
            rows.setdefault(edit.function, ([], []))[0].append(edit.answer)
    for holder, fact, name in must_fail(root, crate):
        rows.setdefault(holder, ([], []))[1].append(f"\\* {fact} (`{name}`)")
    for holder, cells in rows.items():
        yield " | ".join([f"| `{holder}`", *("; ".join(cell).replace("|", "\\|") for cell in cells)]).rstrip() + " |"


def page(root):
    """The whole page."""
    parts = [HEAD]
    for crate in crates(root):
        rows = list(table(root, crate))
        if rows:
            parts.append("\n".join([f"## {crate}", "", "| Function | Wrong answer | Must fail, because |", "|---|---|---|", *rows]) + "\n")
    return "\n".join(parts)


if __name__ == "__main__":
    ROOT = pathlib.Path(__file__).resolve().parent.parent
    (ROOT / PAGE).write_text(page(ROOT), encoding="utf-8")
    sys.exit(0)
