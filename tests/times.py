"""How often alarms were raised: on the page's tables, in reports, and in registers that are checked. Checks for desk.py."""
import csv
import io
import json
import re

from checklist import HERE
from program import DAY, MONTH, WORK, ends, saved, works

WIDTH, RAISES = 1536, 1451
# Where the header has the first record of the active, the history and the free chain.
ACTIVE, HISTORY, FREE = 12, 20, 36
RAISE = "2026-03-14 09:{:02} raise id={} type=t severity={} cause={} object=tenant({})".format
CLEAR = "2026-03-14 09:{:02} clear type=t cause=lease-lost object=tenant(a)".format
# With the answer to each, and what it counts: all of it by hand.
CALLS = [
    RAISE(0, "a", "minor", "lease-lost", "a"),  # raised: 1
    RAISE(1, "b", "minor", "lease-lost", "a"),  # updated: 2
    RAISE(2, "c", "minor", "lease-lost", "a"),  # updated: 3, in the same entry of history
    RAISE(3, "a", "major", "other:x.y", "b"),  # refused, for the id is active
    RAISE(3, "d", "major", "other:x.y", "b"),  # raised: 1
    RAISE(4, "e", "minor", "lease-lost", "c"),  # active limit exceeded
    RAISE(5, "f", "critical", "lease-lost", "a"),  # updated: 4
    "2026-03-14 09:06 acknowledge id=a authorised=yes",  # acknowledged, with 4
    RAISE(7, "g", "critical", "lease-lost", "a"),  # updated, and still acknowledged: 5, in the same entry
    "2026-03-14 09:08 suppress id=d authorised=yes",  # suppressed, with 1
    RAISE(9, "h", "major", "other:x.y", "b"),  # updated, and still suppressed: 2, in the same entry
    CLEAR(10),  # cleared, with 5
    RAISE(11, "i", "minor", "lease-lost", "a"),  # raised anew: 1
    "expire before 2026-03-14 09:10",  # d expires, with 2
    CLEAR(12),  # cleared, with 1
]
# After so many of the calls: `times` of active alarms and of history, and the figures of raises at the end.
AFTER = {
    9: ([5, 1], [3, 1, 4, 5], {"raises at end": 6, "most raises at end": 5, "raises at end critical lease-lost": 5,
                               "raises at end major other:x.y": 1}),
    14: ([1], [2, 5, 1, 2], {"raises at end": 1, "most raises at end": 1, "raises at end minor lease-lost": 1}),
    15: ([], [5, 1, 2, 1], {"raises at end": 0, "most raises at end": 0}),
}


def rows(*words):
    """The rows of a command's table."""
    return list(csv.DictReader(io.StringIO(works(*words, "--csv").decode(), newline="")))


def figures(calls):
    """The figures of raises at the end, in a recount's order."""
    return {row["figure"]: int(row["value"]) for row in rows("recount", calls) if "raises at end" in row["figure"]}


def by_hand(_root):
    """Raises are counted from an alarm's first on, and what else happens to it copies the number, as counted by hand."""
    for count, (active, history, at_end) in AFTER.items():
        text = "\n".join(["limits active=2 history=4 audit=1", *CALLS[:count]]) + "\n"
        calls = saved("raises.calls", works("write", "-", given=text))
        shown = json.loads(works("replay", calls, "--json"))
        times = [[row["times"] for row in shown[name]] for name in ("active", "history")]
        if times != [active, history]:
            yield f"after {count} calls times are {times}"
        if list(figures(calls).items()) != list(at_end.items()):
            yield f"after {count} calls the figures are {figures(calls)}"


def counted(calls):
    """Severity, cause and raises of the alarms that are active at the end, counted from a list's text. What an expiry of these lists
    ends, or leaves, goes by the last raise."""
    active = {}
    for line in works("read", calls).decode().splitlines()[1:]:
        key = tuple(re.findall(r" (?:type|cause|object|tenant|slice|region)=\S+", line))
        if " raise " in line:
            severity, cause = re.search(r" severity=(\S+) cause=(\S+)", line).groups()
            _, _, raises, _ = active.get(key, (None, None, 0, None))
            active[key] = severity, cause, raises + 1, line.split()[:2]
        elif " clear " in line:
            active.pop(key, None)
        elif line.startswith("expire before "):
            active = {key: alarm for key, alarm in active.items() if alarm[3] >= line.split()[2:4]}
    return [alarm[:3] for alarm in active.values()]


def recounted(_root):
    """The raises of the day's and the month's active alarms are those that the raw calls have."""
    for calls, most in ((DAY, 2), (MONTH, 882)):
        alarms = counted(calls)
        if [(row["severity"], row["cause"], int(row["times"])) for row in rows("replay", calls, "--only", "active")] != alarms:
            yield f"{calls.name}: times are not those of {alarms}"
        wanted = {"raises at end": sum(raises for *_, raises in alarms), "most raises at end": max(raises for *_, raises in alarms)}
        for severity, cause, raises in alarms:
            name = f"raises at end {severity} {cause}"
            wanted[name] = wanted.get(name, 0) + raises
        if list(figures(calls).items()) != list(wanted.items()) or wanted["most raises at end"] != most:
            yield f"{calls.name}: {figures(calls)}, not {wanted}"


def reports(_root):
    """A report from before raises were counted differs in them alone, and with --partial in nothing; one may have no sum of a severity alone."""
    lines = (HERE / "examples/day.csv").read_text(encoding="utf-8").splitlines(keepends=True)
    before = saved("before.csv", "".join(line for line in lines if "raises at end" not in line))
    compared = json.loads(works("recount", DAY, "--against", before, "--json", status=1))["figures"]
    differing = {row["figure"]: int(row["difference"]) for row in compared if row["difference"] is not None}
    if differing != {name: -value for name, value in figures(DAY).items()} or len(differing) != 4:
        yield f"a report from before differs in {differing}"
    works("recount", DAY, "--against", before, "--partial")
    absent = saved("absent.csv", "".join([*lines, "raises at end minor other:x.y,0\n"]))
    works("recount", DAY, "--against", absent)
    severity = saved("severity.csv", "figure,value\nraises at end major,2\n")
    yield from ends(3, "line 2: there is no figure `raises at end major`", "recount", DAY, "--against", severity)


def checked(_root):
    """A register is sound with any number of raises; the same bytes of the header and of a free record have no meaning."""
    register = WORK / "raises.register"
    works("replay", DAY, "-o", register)
    whole = register.read_bytes()
    first = {head: int.from_bytes(whole[head:head + 4], "big") * WIDTH for head in (ACTIVE, HISTORY, FREE)}
    for at, sound in ((first[ACTIVE], True), (first[HISTORY], True), (first[FREE], False), (0, False)):
        for raises in (b"\xff\xff\xff\xff", b"\0\0\0\x07") + (b"\0\0\0\0",) * sound:
            data = whole[:at + RAISES] + raises + whole[at + RAISES + 4:]
            said = json.loads(works("check", saved("raises.register", data), "--json", status=0 if sound else 1))
            places = [] if sound else [at + RAISES + raises.index(raises.strip(b"\0"))]
            if said["sound"] != sound or [place["byte"] for place in said["places"]] != places:
                yield f"{raises} at record {at // WIDTH}: {said}"


CHECKS = {
    "raises are counted": by_hand,
    "raises at the end are those of the raw calls": recounted,
    "reports from before raises were counted": reports,
    "registers with any number of raises": checked,
}
