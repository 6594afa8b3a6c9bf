#!/usr/bin/env python3
"""The C header: its constants are the layout's, its refusals those of the table of numbers; programs with it compile as C and C++ and run."""
import json
import pathlib
import re
import shutil
import subprocess
import sys
import tempfile

import numbering
from checklist import Skip, run
from layout import table
from numbering import HEADER

LIMITS, CODE_POINTS = "rust/alarm-register/src/layout.rs", "ALARM_TEXT_CODE_POINTS"
PANEL = "rust/alarm-register/src/panel.rs"
LIBRARY = "target/staticlib/libstation.a"
WARNINGS = ["-Wall", "-Wextra", "-Werror", "-pedantic"]
C, CPP = ("gcc", "-x", "c", "-std=c99"), ("g++", "-x", "c++", "-std=c++11")
# Programs that need no library: one uses nothing of the header, one reads raises and one an active length of which all four bytes differ,
# and one reads ends: none, one of which all eight bytes differ, the first and the last time, and the times around 1970.
NOTHING = '#include "alarm_register.h"\n\nint main(void)\n{\n    return 0;\n}\n'
RAISES = r"""#include <stdio.h>
#include "alarm_register.h"

int main(void)
{
    uint8_t record[ALARM_RECORD_WIDTH] = {0};
    record[1451] = 0xf2;
    record[1452] = 0x34;
    record[1453] = 0x56;
    record[1454] = 0x78;
    printf("%lx\n", (unsigned long)alarm_record_raises(record));
    return 0;
}
"""
ACTIVE = r"""#include <stdio.h>
#include "alarm_register.h"

int main(void)
{
    static const uint8_t block[ALARM_PANEL_WIDTH] = {1, 2, 3, 4, 0xf2, 0x34, 0x56, 0x78};
    printf("%lx\n", (unsigned long)alarm_panel_active(block));
    return 0;
}
"""
ENDS = r"""#include <stdio.h>
#include <string.h>
#include "alarm_register.h"

int main(void)
{
    static const char *const times[] = {"\x12\x34\x56\x78\x9a\xbc\xde\xf0", "\x80\0\0\0\0\0\0\0", "\x7f\xff\xff\xff\xff\xff\xff\xff",
                                        "\xff\xff\xff\xff\xff\xff\xff\xff", "\0\0\0\0\0\0\0\0"};
    uint8_t record[ALARM_RECORD_WIDTH] = {0};
    int64_t end = 7;
    size_t i;
    printf("%d %lld\n", alarm_record_end(record, &end), (long long)end);
    record[1455] = 1;
    for (i = 0; i < sizeof times / sizeof *times; i++) {
        int there;
        memcpy(record + 1456, times[i], 8);
        there = alarm_record_end(record, &end);
        printf("%d %lld\n", there, (long long)end);
    }
    return 0;
}
"""
ENDS_READ = "".join(f"{there} {end}\n" for there, end in ((0, 7), (1, 0x123456789ABCDEF0), (1, -2**63), (1, 2**63 - 1), (1, -1), (1, 0)))

# The header's limits of strings, and the fields of docs/LAYOUT.md that have these rooms. A denial is in no record.
LONGEST = {
    "ID": "id", "TYPE": "type", "OBJECT_STRING": "object string 0", "TENANT": "tenant", "SLICE": "slice", "PRINCIPAL": "principal",
    "CORRELATION": "correlation", "SCOPE_STRING": "scope string", "CAUSE": "cause", "REGION": "region", "TEXT": "text",
    "REASON": "reason", "DETAILS": "details",
}


def constants(root):
    """The header's constants by name."""
    text = (root / HEADER).read_text(encoding="utf-8")
    return {name: int(number) for name, number in re.findall(r"^#define (\w+) +(\d+)u", text, re.M)}


def offsets(prefix, fields):
    """The constants that the fields of a record must have, with their offsets."""
    for name, field in fields.items():
        constant = prefix + name.upper()
        if isinstance(field, int):
            yield constant, field
        elif isinstance(field, list):
            yield constant, field[0]
        elif name == "object":
            yield constant + "_KIND", field["kind"]
            yield constant + "_SHARD_PRESENT", field["shard_present"]
            yield constant + "_QUEUE", field["queue"]
            for place, string in enumerate(field["strings"]):
                yield from offsets(f"{constant}_", {f"STRING_{place}": string})
        elif name == "scope":
            yield constant + "_KIND", field["kind"]
            yield from offsets(f"{constant}_", {"STRING": field["string"]})
        else:
            if "present" in field:
                yield constant + "_PRESENT", field["present"]
            if "len" in field:
                yield constant + "_LENGTH", field["len"][0]
            yield constant, field["at"]


def layout(root):
    """Each offset of docs/layout.json is in the header, and no other offset is."""
    tree = json.loads((root / "docs/layout.json").read_text(encoding="utf-8"))
    wanted = {}
    for prefix, record in (("ALARM_HEADER_", "header"), ("ALARM_RECORD_", "alarm"), ("ALARM_EVENT_", "event")):
        wanted.update(offsets(prefix, tree[record]))
    given = {name: number for name, number in constants(root).items() if re.match(r"ALARM_(HEADER|RECORD|EVENT)_(?!WIDTH$)", name)}
    for name in sorted(wanted.keys() | given.keys()):
        if wanted.get(name) != given.get(name):
            yield f"{name} is {given.get(name)} in the header, {wanted.get(name)} in docs/layout.json"


def longest(root):
    """The limits of strings are the rooms of docs/LAYOUT.md."""
    page = (root / "docs/LAYOUT.md").read_text(encoding="utf-8")
    rooms = {name: int(width) for name, width in re.findall(r"^\| ([a-z 01]+) \| \d+ \| (\d+) \| (?:UTF-8|any|a cause)", page, re.M)}
    given = {name.removeprefix("ALARM_LONGEST_"): number for name, number in constants(root).items() if name.startswith("ALARM_LONGEST_")}
    for name in sorted(LONGEST.keys() | given.keys() - {"DENIAL"}):
        if given.get(name) is None or given.get(name) != rooms.get(LONGEST.get(name)):
            yield f"ALARM_LONGEST_{name} is {given.get(name)}, the room {rooms.get(LONGEST.get(name))}"


def code_points(root):
    """A raise's text has one limit of code points: in the header, in the crate, and in the words of refusals there and on the page."""
    said = r"TEXT_CODE_POINTS(?:: usize =)? +(\d+)|text has more than (\d+) code points"
    places = {path: re.findall(said, numbering.read(root, path)) for path in (HEADER, numbering.PAGE, numbering.CRATE, LIMITS)}
    found = {path: {int(one or other) for one, other in numbers} for path, numbers in places.items()}
    yield from (f"{path} has {sorted(numbers)}" for path, numbers in found.items() if numbers != {constants(root).get(CODE_POINTS)})


def panel(root):
    """The bytes of a panel block follow one another in docs/LAYOUT.md; header and crate have their offsets, its width, and the mask of all severities."""
    slots = [(name, int(at), int(width)) for name, at, width, _ in table(root, "Panel block", ["Field", "Offset", "Width", "Holds"])]
    yield from (f"docs/LAYOUT.md: {name} is not at {at}" for (name, start, _), at in zip(slots[1:], (at + width for _, at, width in slots)) if start != at)
    named = constants(root)
    severities = [number for name, number in named.items() if name.startswith("ALARM_SEVERITY_") and number < 8]
    wanted = {name.upper(): at for name, at, _ in slots} | {"WIDTH": sum(slots[-1][1:]), "MASK_ALL": sum(1 << number for number in severities)}
    _, _, rest = numbering.read(root, LIMITS).partition("\npub mod panel {\n")
    crate = {name: int(at) for name, at in re.findall(r"^    pub const (\w+): usize = (\d+);", rest, re.M)}
    others = re.findall(r"pub const (?:PANEL_)?(WIDTH|MASK_ALL): \w+ = (\w+);", numbering.read(root, LIMITS) + numbering.read(root, PANEL))
    found = {name.removeprefix("ALARM_PANEL_"): number for name, number in named.items() if name.startswith("ALARM_PANEL_")}
    for where, given in ((HEADER, found), ("the crate", crate | {name: int(number, 0) for name, number in others})):
        for name in sorted(wanted.keys() | given.keys()):
            if wanted.get(name) != given.get(name):
                yield f"{name} of a panel is {given.get(name)} in {where}, {wanted.get(name)} by docs/LAYOUT.md and the severities"


def numbers(root):
    """The page's table, the header and the Rust crate have the same numbers, by rising number, the definition's lists have them in the order
    of the checks, and none has a removed one."""
    rows, lists = numbering.given(root), numbering.defined(root)
    for entry, name in numbering.ENTRIES.items():
        page, found = [row.number for row in numbering.checked(rows) if entry in row.entries], lists.get(name, [])
        if page != [0, *found]:
            yield f"{entry} returns {page} by {numbering.PAGE}, and {name} of {numbering.DEFINITION} is {found}"
    known = [*numbering.ENTRIES.values(), *numbering.PARTS]
    yield from (f"{numbering.DEFINITION}: {name} is the list of no entry point" for name in lists if name not in known)
    for where, found in ((numbering.PAGE, {entry for row in rows for entry in row.entries}), (HEADER, set(numbering.functions(root)))):
        if found != set(numbering.ENTRIES):
            yield f"{where} has the entry points {sorted(found)}"
    page = [(str(row.number), row.name) for row in rows if row.name]
    for where, found in numbering.named(root):
        if found != page:
            at = next((i for i, (one, other) in enumerate(zip(found, page)) if one != other), min(len(found), len(page)))
            yield f"{where} has {found[at:at + 1]} where {numbering.PAGE} has {page[at:at + 1]}"
    yield from (f"{numbering.PAGE} has {number}, which was removed" for number in numbering.removed(root) if number in [row.number for row in rows])


def compiled(root, compiler, program, printed, *libraries):
    """The faults of a program that should compile without a warning, run, and print this."""
    if not shutil.which(compiler[0]):
        raise Skip(f"{compiler[0]} is not on this machine")
    with tempfile.TemporaryDirectory() as folder:
        file = pathlib.Path(folder) / "program"
        words = [*compiler, *WARNINGS, f"-I{root / 'include'}", "-", "-x", "none", *libraries, "-o", file]
        done = subprocess.run(words, input=program, stdout=subprocess.PIPE, stderr=subprocess.STDOUT, text=True)
        if done.returncode:
            yield from done.stdout.splitlines()[:10] or [f"{compiler[0]}: exit status {done.returncode}"]
            return
        done = subprocess.run([file], stdout=subprocess.PIPE, text=True)
        if done.returncode or done.stdout != printed:
            yield f"it ends with {done.returncode} and prints {done.stdout!r}"


def example(compiler, name):
    """A check: a program of the examples prints what it should."""
    def go(root):
        if not (root / LIBRARY).exists():
            raise Skip(f"{LIBRARY} is not built; `make lib` builds it")
        program, printed = ((root / f"examples/{name}.{kind}").read_text(encoding="utf-8") for kind in ("c", "out"))
        yield from compiled(root, compiler, program, printed, root / LIBRARY)
    return go


def asked(root):
    """The library asks its host for just the functions that the header says it uses."""
    if not (root / LIBRARY).exists():
        raise Skip(f"{LIBRARY} is not built; `make lib` builds it")
    if not shutil.which("nm"):
        raise Skip("nm is not on this machine")
    said = set(re.findall(r"\bmem\w+", re.search(r"It uses (.*?) of the C\b", (root / HEADER).read_text(encoding="utf-8")).group(1)))
    rows = subprocess.run(["nm", "-u", root / LIBRARY], stdout=subprocess.PIPE, text=True, check=True).stdout.splitlines()
    names = {row.split()[-1] for row in rows if row.strip() and not row.endswith(":")}
    yield from (f"the library asks for {name}, which the header does not name" for name in sorted(names - said))
    yield from (f"the header names {name}, which the library does not ask for" for name in sorted(said - names))


def raises(root):
    """Raises are read from their four bytes, in C and in C++; a program that does not read them compiles too."""
    for compiler in (C, CPP):
        yield from compiled(root, compiler, NOTHING, "")
        yield from compiled(root, compiler, RAISES, "f2345678\n")


def active(root):
    """The active length is read from the last four bytes of a panel block, in C and in C++."""
    for compiler in (C, CPP):
        yield from compiled(root, compiler, ACTIVE, "f2345678\n")


def ends(root):
    """The end of a suppression is read from its option byte and its eight bytes, in C and in C++."""
    for compiler in (C, CPP):
        yield from compiled(root, compiler, ENDS, ENDS_READ)


CHECKS = {
    "offsets are the layout's": layout,
    "limits of strings are the layout's": longest,
    "one limit of code points": code_points,
    "a panel's bytes are the layout's": panel,
    "numbers are those of docs/NUMBERS.md": numbers,
    "the library asks for what the header says": asked,
    "raises are read": raises,
    "ends are read": ends,
    "a panel's active length is read": active,
    "a cabinet's program in C": example(C, "cabinet"),
    "the same program in C++": example(CPP, "cabinet"),
    "a lamp card's program in C": example(C, "lamp_card"),
    "a lamp card's program in C++": example(CPP, "lamp_card"),
}

if __name__ == "__main__":
    sys.exit(run("header", CHECKS))
