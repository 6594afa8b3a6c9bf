"""Panels: which lamps `station panel` shows as lit, after which call and with which mask, in every form of output. Checks for desk.py."""
import csv
import io
import json
import shutil

from checklist import HERE
from program import DAY, PAGE_WIDTH, ends, saved, too_wide, works

SEVERITIES = ("cleared", "indeterminate", "warning", "minor", "major", "critical")
HEAD = "limits active=2 history=9 audit=9\nday 14 March 2026\n"
RAISE = "09:00 raise id={0} type=t severity={1} cause=lease-lost object=tenant({0})".format
DONE = "09:01 {} id=a authorised={}".format
MINOR, MAJOR = RAISE("a", "minor"), RAISE("b", "major")
UNTIL = "09:01 suppress-until 10:00 id=a principal=p scope=global critical-allowed=no authorised=yes"
CLEAR = "09:02 clear type=t cause=lease-lost object=tenant(a)"
# Lists of calls, the mask, and the block by hand: flags, mask, waiting, lit, active length.
BLOCKS = [
    ([], "all", "00 3f 00 00 00000000"),
    ([], "none", "00 00 00 00 00000000"),
    *(([RAISE("a", severity)], "all", f"{1 << place:02x} 3f {place + 1:02x} 01 00000001") for place, severity in enumerate(SEVERITIES)),
    *(([RAISE("a", severity)], "none", f"{1 << place:02x} 00 00 00 00000001") for place, severity in enumerate(SEVERITIES)),
    *(([RAISE("a", severity)], severity, f"{1 << place:02x} {1 << place:02x} {place + 1:02x} 01 00000001") for place, severity in enumerate(SEVERITIES)),
    ([MINOR, MINOR], "all", "08 3f 04 01 00000001"),
    ([MINOR, DONE("acknowledge", "yes")], "all", "00 3f 00 00 00000001"),
    ([MINOR, DONE("acknowledge", "no")], "all", "08 3f 04 01 00000001"),
    ([MINOR, DONE("acknowledge", "yes"), MINOR], "all", "00 3f 00 00 00000001"),
    ([MINOR, DONE("suppress", "yes")], "all", "00 3f 00 00 00000001"),
    ([MINOR, DONE("suppress", "yes"), RAISE("a", "critical")], "all", "00 3f 00 00 00000001"),
    ([MINOR, DONE("suppress", "yes"), MAJOR], "all", "10 3f 05 01 00000002"),
    ([MINOR, UNTIL], "all", "00 3f 00 00 00000001"),
    ([MINOR, UNTIL, "lift up-to 09:59"], "all", "00 3f 00 00 00000001"),
    ([MINOR, UNTIL, "lift up-to 10:00"], "all", "08 3f 04 01 00000001"),
    ([MINOR, CLEAR], "all", "00 3f 00 00 00000000"),
    ([MINOR, "expire before 09:01"], "all", "00 3f 00 00 00000000"),
    ([MINOR, RAISE("b", "minor"), CLEAR], "all", "08 3f 04 01 00000001"),
    ([MINOR, MAJOR], "all", "18 3f 05 01 00000002"),
    ([MINOR, MAJOR], "minor", "18 08 04 01 00000002"),
    ([MINOR, MAJOR], "critical,minor,cleared", "18 29 04 01 00000002"),
    ([MINOR, MAJOR], "critical,warning", "18 24 00 00 00000002"),
    ([MINOR, MAJOR, RAISE("c", "critical")], "all", "18 3f 05 01 00000002"),
]


def listed(*lines, name="panel.calls"):
    """A list of these lines, as a file."""
    return saved(name, works("write", "-", given=HEAD + "\n".join(lines) + "\n"))


def shown(calls, *words):
    return json.loads(works("panel", calls, *words, "--json"))


def lamps(calls, *words):
    return list(csv.DictReader(io.StringIO(works("panel", calls, *words, "--csv").decode(), newline="")))


def by_hand(_root):
    """Blocks are as written by hand, and what stands beside them says the same."""
    for calls, mask, block in BLOCKS:
        got, wanted = shown(listed(*calls), "--mask", mask), bytes.fromhex(block)
        if got["block"] != wanted.hex():
            yield f"{calls}, mask {mask}: {got['block']}, not {block}"
        flags, let_through, waiting, lit = wanted[:4]
        said = (flags, let_through, SEVERITIES[waiting - 1] if waiting else None, bool(lit), int.from_bytes(wanted[4:], "big"), len(calls))
        if tuple(got[name] for name in ("flags", "mask", "waiting", "lit", "active", "calls")) != said:
            yield f"{calls}, mask {mask}: {got}"
        yield from (f"{calls}, mask {mask}: {row}" for row, fits in zip(got["lamps"], fitting(got["lamps"], flags, let_through)) if not fits)
        if [row["severity"] for row in got["lamps"]] != [*reversed(SEVERITIES)]:
            yield f"{calls}, mask {mask}: not all lamps, from critical down"


def fitting(rows, flags, mask):
    """Whether each lamp says what its bits say, and a flag is set where alarms stand behind it."""
    for row in rows:
        flag, through = (bool(bits >> SEVERITIES.index(row["severity"]) & 1) for bits in (flags, mask))
        words = ("lit" if flag and through else "dark", "set" if flag else "not set", "lets through" if through else "holds back")
        yield (row["lamp"], row["flag"], row["mask"]) == words and (row["raised_or_updated"] > 0) == flag


def counted(_root):
    """Beside a lamp stands how many active alarms of its severity are raised or updated."""
    head = HEAD.replace("active=2", "active=9")
    lines = [RAISE(name, "major") for name in "abcd"] + [RAISE(name, "minor") for name in "ef"] + [RAISE("b", "major"), DONE("suppress", "yes")]
    lines += ["09:02 acknowledge id=e authorised=yes", "09:03 acknowledge id=f authorised=yes"]
    calls = saved("panel.calls", works("write", "-", given=head + "\n".join(lines) + "\n"))
    found = {row["severity"]: row["raised_or_updated"] for row in lamps(calls, "--mask", "minor")}
    if {severity: number for severity, number in found.items() if number != "0"} != {"major": "3"} or shown(calls)["active"] != 6:
        yield f"{found}, {shown(calls)['active']} active"


def after_calls(_root):
    """--at shows the panel after that call, refused calls are counted and change nothing, and a call that is not there is told."""
    lines = [MINOR, MAJOR, "raw 0b00", DONE("acknowledge", "yes"), "raw", "09:04 suppress id=b authorised=yes", "summary", MINOR]
    calls = listed(*lines)
    for number in range(1, len(lines) + 1):
        got, alone = shown(calls, "--at", number), shown(listed(*lines[:number], name="part.calls"))
        if got != alone or got["calls"] != number:
            yield f"after call {number}: {got}, and of the calls up to it {alone}"
    blocks = [shown(calls, "--at", number)["block"][:2] for number in range(1, len(lines) + 1)]
    if blocks != ["08", "18", "18", "10", "10", "00", "00", "00"] or shown(calls) != shown(calls, "--at", len(lines)):
        yield f"the flags are {blocks}"
    for words, said in [(["--at", 3], "After call 3 of 8 of "), ([], "After 8 calls of ")]:
        if said not in works("panel", calls, *words).decode():
            yield f"{words}: the page does not say {said}"
    for lines, said in [([MINOR], "After 1 call of "), ([], "Before any call of ")]:
        if said not in works("panel", listed(*lines)).decode():
            yield f"{lines}: the page does not say {said}"
    yield from ends(3, "panel.calls: there is no call 9: the list has 8", "panel", listed(*[MINOR] * 8), "--at", 9)
    yield from ends(3, "there is no call 1: the list has 0", "panel", listed(), "--at", 1)


def faults(_root):
    """A mask that is none and a number that is none are told."""
    for mask in ("", "red", "critical;major", "critical,", "63", "0x3f", "all,none", "CRITICAL"):
        yield from ends(2, "--mask takes severities with commas between them, as critical,major, or all, or none", "panel", DAY, "--mask", mask)
    yield from ends(2, "--mask needs a value", "panel", DAY, "--mask")
    for number in ("0", "-1", "x"):
        yield from ends(2, "--at takes the number of a call, counted from 1", "panel", DAY, "--at", number)
    yield from ends(2, "there is no option --only", "panel", DAY, "--only", "active")
    yield from ends(2, "do not go together", "panel", DAY, "--json", "--csv")
    if shown(DAY, "--mask", " minor , major ")["mask"] != 0x18 or shown(DAY, "--mask", ",".join(SEVERITIES)) != shown(DAY):
        yield "blanks, or every severity by its name, make another mask"


def forms(_root):
    """The page of the day is the one that is shown; page, JSON and CSV say the same."""
    (HERE / "target/desk").mkdir(parents=True, exist_ok=True)
    shutil.copy(DAY, HERE / "target/desk/day.calls")
    words = ("target/desk/day.calls", "--at", 23, "--mask", "critical,major")
    page = works("panel", *words).decode()
    if page != (HERE / "examples/day.panel").read_text(encoding="utf-8"):
        yield "examples/day.panel is not what `station panel` prints"
    yield from too_wide("day", page.encode(), PAGE_WIDTH)
    got = shown(*words)
    if [{key: str(value) for key, value in row.items()} for row in got["lamps"]] != lamps(*words):
        yield "lamps differ between CSV and JSON"
    for row in got["lamps"]:
        cells = (row["severity"], row["lamp"], row["flag"], row["mask"], str(row["raised_or_updated"]))
        if cells not in [tuple(cell.strip() for cell in line.split("│")) for line in page.splitlines()]:
            yield f"the page lacks {cells}"
    bytes_shown = " ".join(got["block"][at:at + 2] for at in range(0, 16, 2))
    wanted = f"Highest severity that is waiting: {got['waiting']}\nLit: yes\nActive alarms, acknowledged and suppressed ones among them: {got['active']}\n"
    if not page.endswith(f"\n\n{wanted}Block: {bytes_shown}\n"):
        yield f"the page ends with {page[-200:]!r}"
    if "waiting: none\nLit: no\n" not in works("panel", *words[:3], "--mask", "cleared").decode():
        yield "a dark panel is not told"
    wide = saved("w" * 120 + ".calls", DAY.read_bytes())
    yield from too_wide("a long name", works("panel", wide), PAGE_WIDTH)


def excerpt(root):
    """The lines that docs/CALLS.md shows of a panel are printed in that order; `...` stands for lines left out."""
    _, found, rest = (root / "docs/CALLS.md").read_text(encoding="utf-8").partition("    $ station panel day.calls --at 23 --mask critical,major\n")
    printed = iter(works("panel", DAY, "--at", 23, "--mask", "critical,major").decode().splitlines())
    missing = [line for line in rest.partition("\n\n")[0].splitlines() if line[4:] != "..." and line[4:] not in printed]
    if not found or missing:
        yield f"not shown, or not printed in this order: {missing[:1]}"


def texts(_root):
    """No text and no details light a lamp."""
    said = ' text="critical: drive trip" details="severity=critical\\x05\\xff"'
    for mask in ("all", "minor", "critical"):
        plain, told = (shown(listed(MINOR + more, MAJOR + more, DONE("acknowledge", "yes")), "--mask", mask) for more in ("", said))
        if plain != told:
            yield f"mask {mask}: {plain}, and with texts {told}"


CHECKS = {
    "panels are as made by hand": by_hand,
    "alarms behind a lamp": counted,
    "panels after a call": after_calls,
    "faults of panels": faults,
    "the panel's page, JSON and CSV": forms,
    "CALLS shows a panel that is printed": excerpt,
    "texts light no lamp": texts,
}
