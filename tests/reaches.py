"""`station reach`: a list beside the same list with one severity changed, and what is bounded. Checks for desk.py."""
import csv
import io
import itertools
import json
import re
import shutil

from checklist import HERE
from program import DAY, PAGE_WIDTH, WORK, ends, saved, too_wide, works

SEVERITIES = ("cleared", "indeterminate", "warning", "minor", "major", "critical")
# Calls by their answer, and expired and lifted alarms.
BY_ANSWER = ("raised", "updated", "cleared", "clear without active", "active limit exceeded", "suppressed", "acknowledged", "unauthorized",
             "audit failed", "not found", "expired", "lifted")
# The day's raises, each with the answered policy call that is the first behind it.
DAY_RAISES = {**dict.fromkeys((1, 3, 4, 5, 6, 7, 10, 11), 13), **dict.fromkeys((17, 18), 19), **dict.fromkeys((20, 22, 23), None)}
RAISE = "2026-03-14 09:0{} raise id={} type=t severity={} cause=lease-lost object=tenant({})".format
POLICY = "2026-03-14 09:02 suppress-with-policy id=a principal=p scope=global critical-allowed=no authorised=yes"
CLEAR = "2026-03-14 09:05 clear type=t cause=lease-lost object=tenant(a)"
EXPIRE = "expire before 2026-03-14 09:01"


def listed(*lines, name="reach.calls", limits="active=2 history=3 audit=1"):
    """A list of these lines, as a file."""
    return saved(name, works("write", "-", given="\n".join([f"limits {limits}", *lines]) + "\n"))


def calls_of(data):
    """The bytes of each call of a list."""
    at, calls = 28, []
    while data[at:at + 4] != b"\xff" * 4:
        length = int.from_bytes(data[at:at + 4], "big")
        calls.append(data[at + 4:at + 4 + length])
        at += 4 + length
    return calls


def raw(line, at, value):
    """The call of a line with another byte at a place, as a line."""
    [call] = map(bytearray, calls_of(listed(line, name="raw.calls").read_bytes()))
    call[at] = value
    return f"raw {call.hex()}"


def rows(*words):
    """The table of a command as CSV, by the names of its rows."""
    table = csv.DictReader(io.StringIO(works(*words, "--csv").decode(), newline=""))
    return {row.pop("figure"): row for row in table}


def reached(calls, at, severity):
    """What `station reach` finds, for scripts. Its figures come by their names, and CSV has the same."""
    words = ["reach", calls, "--at", at, "--severity", severity]
    whole = json.loads(works(*words, "--json"))
    if any(value == "" for row in whole["figures"] for value in row.values()):
        raise ValueError(f"JSON has an empty string for call {at} as {severity}, where nothing is null")
    plain = [{key: value or "" for key, value in row.items()} for row in whole["figures"]]
    whole["figures"] = {row.pop("figure"): row for row in plain}
    if whole["figures"] != rows(*words) or list(whole["figures"]) != list(rows(*words)):
        raise ValueError(f"JSON and CSV differ for call {at} as {severity}")
    return whole


def counted(calls):
    """The active counts by severity of a list, as operation 10 gives them."""
    counts = dict.fromkeys(SEVERITIES, 0)
    for row in csv.DictReader(io.StringIO(works("replay", calls, "--only", "counts", "--csv").decode(), newline="")):
        counts[row["severity"]] += int(row["alarms"])
    return counts


def changed(calls, at, severity):
    """The list with another severity in one raise, made by way of its text."""
    head, *lines = works("read", calls).decode().splitlines()
    lines[at - 1] = re.sub(r" severity=\w+", f" severity={severity}", lines[at - 1], count=1)
    return saved("changed.calls", works("write", "-", given="\n".join([head, *lines]) + "\n"))


def expected(got, name, listed_value, changed_value, bound):
    """The fault of a figure that should have these values and this bound."""
    row = got["figures"].get(name, {})
    if (row.get("as_listed"), row.get("as_changed"), row.get("bound")) != (str(listed_value), str(changed_value), bound):
        yield f"call {got['call']} as {got['severity_as_changed']}: {name} is {row}"


def bounds_at_end(got, bounded):
    """The faults of the bounds at the end: those of the theorem, or none at all."""
    severities = (got["severity_as_listed"], got["severity_as_changed"])
    bounds = {"active at end": "equal", **{f"active at end {name}": "at most 1" if name in severities else "equal" for name in SEVERITIES}}
    bounds |= dict.fromkeys(BY_ANSWER, "equal")
    shown = {name: row["bound"] for name, row in got["figures"].items() if row["bound"]}
    if shown != (bounds if bounded else {}):
        yield f"call {got['call']} as {severities[1]}: the bounds are {shown}"
    first = list(got["figures"])[:len(bounds)]
    if first != list(bounds) or got["bounds_hold"] is not True:
        yield f"call {got['call']} as {severities[1]}: the first figures are {first}; held: {got['bounds_hold']}"


def page(_root):
    """The page of the day's worn sheaves, entered as minor, is the one that is shown."""
    shutil.copy(DAY, HERE / "target/desk/day.calls")
    out = works("reach", "target/desk/day.calls", "--at", 23, "--severity", "minor", "--zone", "+01:00").decode()
    if out != (HERE / "examples/day.reach").read_text(encoding="utf-8"):
        yield "examples/day.reach is not what `station reach` prints"


def unlike_recount(got, column, calls):
    """The fault of a column that is not what `station recount` and operation 10 count of its list; a figure that a list does not have is 0."""
    counts = {f"active at end {name}": str(count) for name, count in counted(calls).items()}
    figures = {**counts, **{name: row["value"] for name, row in rows("recount", calls).items()}}
    shown = {name: row[column] for name, row in got["figures"].items() if name in figures or row[column] != "0"}
    if shown != figures:
        yield f"call {got['call']} as {got['severity_as_changed']}, {column}: {set(shown.items()) ^ set(figures.items())}"


def day(_root):
    """Each raise of the day with each other severity: both columns are recounted, and bounds end where a policy call is answered."""
    lines = works("read", DAY).decode().splitlines()[1:]
    for (at, policy), severity in itertools.product(DAY_RAISES.items(), SEVERITIES):
        if f" severity={severity} " in lines[at - 1]:
            continue
        got = reached(DAY, at, severity)
        yield from bounds_at_end(got, policy is None)
        yield from unlike_recount(got, "as_listed", DAY)
        yield from unlike_recount(got, "as_changed", changed(DAY, at, severity))
        if (got["call"], got["severity_as_changed"], got["unbounded_from_call"]) != (at, severity, policy):
            yield f"call {at} as {severity}: {got['unbounded_from_call']}, and not {policy}, is where bounds end"


def counted_after(data, length):
    """The active counts after so many calls of a list: those of a list that ends there."""
    calls = b"".join(len(call).to_bytes(4, "big") + call for call in calls_of(data)[:length])
    return counted(saved("part.calls", data[:28] + calls + b"\xff" * 4 + length.to_bytes(4, "big")))


def after_each_call(_root):
    """The calls after which counts differ are those after which operation 10 counts otherwise."""
    for at, severity in ((3, "critical"), (10, "cleared"), (18, "critical"), (20, "major"), (23, "minor")):
        first, second = (path.read_bytes() for path in (DAY, changed(DAY, at, severity)))
        numbers = range(1, len(calls_of(first)) + 1)
        differing = [number for number in numbers if counted_after(first, number) != counted_after(second, number)]
        got = reached(DAY, at, severity)
        if (got["differing_calls"], got["first_differing_call"], got["last_differing_call"]) != (len(differing), differing[0], differing[-1]):
            yield f"call {at} as {severity}: counts differ after {differing}"


def history(_root):
    """History has no bound: it may grow by another number of entries. Counts that differ for a while are equal at the end."""
    calls = listed(*(RAISE(minute, "a", severity, "a") for minute, severity in enumerate(("minor", "major", "minor"))))
    got = reached(calls, 2, "minor")
    yield from expected(got, "history entries at end", 3, 2, "")
    yield from expected(got, "raises at end minor lease-lost", 3, 3, "")
    yield from expected(got, "active at end major", 0, 0, "at most 1")
    yield from bounds_at_end(got, True)
    out = " ".join(works("reach", calls, "--at", 2, "--severity", "minor").decode().split())
    for said in ("severity major; as changed, minor.", "The active counts by severity differ after call 2 alone.", "Bounded after every call: as many",
                 "the counts of major and minor differ by at most 1", "are refused alike, or answered with the same code and number.",
                 "as long as no policy call behind the raise is answered", "it may differ in others."):
        if said not in out:
            yield f"the page does not say {said!r}"


def policies(_root):
    """An answered policy call behind the raise ends every bound; a refused one does not, nor does one before the raise."""
    critical, refused = RAISE(0, "a", "critical", "a"), raw(POLICY, -5, 2)
    got = reached(listed(critical, POLICY, EXPIRE), 1, "minor")
    for name in ("active at end", "raises at end", "most raises at end", "raises at end minor lease-lost"):
        yield from expected(got, name, 0, 1, "")
    yield from bounds_at_end(got, False)
    if (got["unbounded_from_call"], got["last_differing_call"]) != (2, 3):
        yield f"bounds end with call {got['unbounded_from_call']}, and counts differ last after call {got['last_differing_call']}"
    out = " ".join(works("reach", WORK / "reach.calls", "--at", 1, "--severity", "minor").decode().split())
    said = "From call 2 on nothing is bounded: it is a policy call behind call 1, and was answered; a critical severity may stop a suppression."
    if said not in out or " bound │" in out or "│ bound" in out:
        yield f"the page with a policy call is {out}"
    for lines, at, active in (((critical, refused, EXPIRE), 1, 0), ((critical, "raw 05", "raw 06", "raw 0d", EXPIRE), 1, 0),
                              ((RAISE(0, "a", "minor", "a"), POLICY, RAISE(3, "b", "critical", "b"), EXPIRE), 3, 2)):
        got = reached(listed(*lines), at, "major")
        yield from expected(got, "active at end", active, active, "equal")
        yield from bounds_at_end(got, True)
        if got["unbounded_from_call"] is not None:
            yield f"bounds of {lines} end with call {got['unbounded_from_call']}"
    if "\nrefused 25,1,1,,\n" not in works("reach", listed(critical, refused), "--at", 1, "--severity", "minor", "--csv").decode():
        yield "the policy call with a wrong byte is not refused with 25"


def without_effect(_root):
    """A raise that is refused, or that finds no room, changes no count, and no bound ends."""
    minor = RAISE(0, "a", "minor", "a")
    bad_cause = raw(RAISE(1, "b", "minor", "b"), 27, 0)
    for lines, name, bound in (((minor, RAISE(1, "a", "minor", "b")), "refused 31", ""), ((minor, bad_cause), "refused 28", ""),
                               (("answer 16", minor), "refused 30", ""), ((minor, RAISE(1, "c", "minor", "c"), RAISE(2, "d", "minor", "d")), "active limit exceeded", "equal")):
        got = reached(listed(*lines), sum(line != "answer 16" for line in lines), "critical")
        yield from expected(got, name, 1, 1, bound)
        yield from bounds_at_end(got, True)
        if got["differing_calls"] or got["first_differing_call"] is not None or got["last_differing_call"] is not None:
            yield f"{name}: counts differ"
    if b"differ after no call." not in works("reach", WORK / "reach.calls", "--at", 3, "--severity", "cleared"):
        yield "the page does not say that counts differ after no call"


def cleared(_root):
    """Severity cleared is one as the others are, and its alarm stays active; other figures may differ by what is answered."""
    lines = ["answer 1552", RAISE(0, "a", "minor", "a"), RAISE(1, "b", "minor", "b"), "active severity=minor"]
    got = reached(listed(*lines), 2, "cleared")
    for figure in (("active at end", 2, 2, "equal"), ("active at end cleared", 0, 1, "at most 1"), ("active at end minor", 2, 1, "at most 1"),
                   ("refused 30", 1, 0, ""), ("worst at end", "minor", "minor", "")):
        yield from expected(got, *figure)
    yield from bounds_at_end(got, True)
    got = reached(listed(RAISE(0, "a", "cleared", "a"), CLEAR), 1, "critical")
    yield from expected(got, "cleared", 1, 1, "equal")
    if (got["severity_as_listed"], got["differing_calls"], got["last_differing_call"]) != ("cleared", 1, 1):
        yield f"a raise of severity cleared is {got}"


# What `--at` and `--severity` do not take.
NUMBERS = ("0", "-1", "x", "", "1.5", "9" * 30)
NAMES = ("", "Minor", "3", "worst", "\N{COMBINING ACUTE ACCENT}")


def usage(_root):
    """A command line that is not understood is told."""
    yield from ends(2, "--at is needed", "reach", DAY, "--severity", "minor")
    yield from ends(2, "--severity is needed", "reach", DAY, "--at", 23)
    yield from ends(2, "--at needs a value", "reach", DAY, "--severity", "minor", "--at")
    yield from ends(2, "do not go together", "reach", DAY, "--at", 23, "--severity", "minor", "--json", "--csv")
    wrong = [("--at takes the number of a call, counted from 1", number, "minor") for number in NUMBERS]
    wrong += [("a severity is cleared, indeterminate, warning, minor, major or critical", 1, severity) for severity in NAMES]
    for said, number, severity in wrong:
        yield from ends(2, said, "reach", DAY, "--at", number, "--severity", severity)


def faults(_root):
    """A call that has no such severity to change is told, with its number."""
    raised = RAISE(0, "a", "minor", "a")
    whole = calls_of(listed(raised).read_bytes())[0]
    calls = listed(raised, "summary", "raw", f"raw {whole[:19].hex()}", raw(raised, 19, 6), "raw 01", CLEAR, raw(raised, 13, 0xff))
    wanted = {
        1: "call 1 has severity minor already: 2026-03-14 09:00:00 raise id=a",
        2: "call 2 is no raise: summary",
        3: "call 3 is no raise: raw # refused: 23",
        4: "call 4 ends before its severity: raw 01",
        5: "call 5 has 6 as its severity, and a severity is 0 to 5: raw 01",
        6: "call 6 ends before its severity: raw 01",
        7: "call 7 is no raise: 2026-03-14 09:05:00 clear type=t",
        8: "call 8 is refused for its id or its type, and so has no severity: raw 01",
        9: "there is no call 9: the list has 8",
    }
    for number, said in wanted.items():
        yield from ends(3, f"reach.calls: {said}", "reach", calls, "--at", number, "--severity", "minor")
    yield from ends(3, "standard input: call 1 has severity minor already", "reach", "-", "--at", 1, "--severity", "minor", given=calls.read_bytes())


def numbered(_root):
    """`station read --numbers` has each call's number, as `station reach` takes it, and is still the list's text."""
    text = works("read", DAY, "--numbers")
    if works("write", "-", given=text) != DAY.read_bytes():
        yield "the text with numbers is of another list"
    for number, line in enumerate(text.decode().splitlines()[1:], 1):
        if not line.endswith(f" # call {number}"):
            yield f"call {number} is {line}"
        if " raise " in line and number not in DAY_RAISES:
            yield f"call {number} is a raise"


def narrow(_root):
    """No page is wider than it may be, and no text in it steers a terminal."""
    names = [letter * 64 for letter in "BFGHJK"]
    wide = "2026-12-24 23:59:58.123456789 raise id={} type={} severity=indeterminate cause=other:{}.x object=peer({},{}) tenant={}".format(*names)
    calls = listed(wide + ' text="\x1b[31mred"', RAISE(1, "a", "major", "\x1b[31m"), name="n" * 90 + ".calls")
    for at in (1, 2):
        out = works("reach", calls, "--at", at, "--severity", "critical")
        yield from too_wide(f"call {at}", out, PAGE_WIDTH)
        if b"\x1b" in out:
            yield f"call {at}: the page lets a text steer the terminal"


CHECKS = {
    "a wrong severity's page": page,
    "a wrong severity's figures are recounted": day,
    "a wrong severity after each call": after_each_call,
    "a wrong severity in history": history,
    "policy calls end the bounds": policies,
    "a wrong severity without effect": without_effect,
    "severity cleared, and what is answered": cleared,
    "a wrong severity's command line": usage,
    "calls without a severity to change": faults,
    "calls have their numbers": numbered,
    "pages of a wrong severity are narrow enough": narrow,
}
