"""The numbers that entry points return, as the page, the definition, the C header and the Rust crate list them."""
import re
from typing import NamedTuple

PAGE, DEFINITION = "docs/NUMBERS.md", "crates/definition/specs/Numbers.antt"
HEADER, CRATE = "include/alarm_register.h", "rust/alarm-register/src/refusal.rs"
# The entry points, and the definition's list of the refusals of each, which two may share; lists of no entry point, which others hold.
ENTRIES = {"alarm_open": "opening_refusals", "alarm_step": "step_refusals", "alarm_panel_look": "panel_refusals", "alarm_panel_write": "panel_refusals"}
PARTS = ["call_refusals", "sound_refusals"]
# The columns of the page's two tables.
GIVEN = ["No.", "Checked at", "Given if", "Entry points", "From", "Name in the header"]
REMOVED = ["No.", "From", "Was given if", "Removed by", "Why"]


class Row(NamedTuple):
    """A number, where it is checked, the entry points that return it, and its name in the header; 0 has no name."""
    number: int
    place: str
    entries: list
    name: str


def read(root, path):
    return (root / path).read_text(encoding="utf-8")


def cells(root, columns):
    """The rows of the page's table with these columns."""
    _, found, rest = read(root, PAGE).partition(f"| {' | '.join(columns)} |\n")
    if not found:
        raise ValueError(f"{PAGE}: no table {columns}")
    rows = rest.partition("\n\n")[0].splitlines()[1:]
    return [[cell.strip(" `") for cell in row.removeprefix("|").removesuffix("|").split("|")] for row in rows]


def given(root):
    """The page's numbers, in its order."""
    return [Row(int(number), place, entries.replace("`", "").split(", "), name) for number, place, _, entries, _, name in cells(root, GIVEN)]


def checked(rows):
    """The numbers in the order of the checks: that of the places as the page first names them, and then the page's."""
    places = list(dict.fromkeys(row.place for row in rows))
    return sorted(rows, key=lambda row: places.index(row.place))


def removed(root):
    """The numbers that the page says are no longer there."""
    return [int(number) for number, *_ in cells(root, REMOVED)]


def refusals(root):
    """The page's numbers but 0."""
    return [row.number for row in given(root) if row.number]


def defined(root):
    """The definition's lists by name; one may hold another by its name."""
    lists = {}
    for name, items in re.findall(r"^(\w+_refusals) = (.*)$", re.sub(r"--.*", "", read(root, DEFINITION)), re.M):
        lists[name] = [number for item in re.findall(r"\w+", items) for number in ([int(item)] if item.isdigit() else lists[item])]
    return lists


def functions(root):
    """The entry points that the header declares."""
    return re.findall(r"^\w+ (alarm_\w+)\(", read(root, HEADER), re.M)


def header_name(name):
    """A refusal of the crate by the header's name."""
    return "ALARM_REFUSED_" + re.sub(r"(?<=.)(?=[A-Z])", "_", name).upper()


def named(root):
    """The places where refusals have names, each with its numbers, in digits, and their names in the header."""
    header, crate = read(root, HEADER), read(root, CRATE)
    yield HEADER, [(number.removesuffix("u"), name) for name, number in re.findall(r"^#define (ALARM_REFUSED_\w+)\s+(\S+)", header, re.M)]
    numbers = dict(re.findall(r"^ +Refusal::(\w+) => (\d+),$", crate, re.M))
    yield f"{CRATE}, number()", [(number, header_name(name)) for name, number in numbers.items()]
    yield f"{CRATE}, the enum", [(number, header_name(name)) for number, name in re.findall(r"^    /// (\d+): .*\n    (\w+),$", crate, re.M)]
    yield f"{CRATE}, ALL", [(numbers.get(name), header_name(name)) for name in re.findall(r"^        Refusal::(\w+),$", crate, re.M)]
