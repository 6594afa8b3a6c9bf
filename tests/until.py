"""Suppressions until a time, and lifts: what is written, read, shown, recounted and checked of them. Checks for desk.py."""
import csv
import io
import json

from checklist import HERE
from program import DAY, PAGE_WIDTH, WORK, ends, saved, too_wide, works

WIDTH, STATE, END = 1536, 21, 1455
# Where the header has the first record of the active, the history and the free chain.
ACTIVE, HISTORY, FREE = 12, 20, 36
STATES = ("raised", "updated", "acknowledged", "suppressed", "cleared", "expired")
HEAD = "limits active=2 history=9 audit=12\nday 14 March 2026\n"
RAISE = "{} raise id={} type=t severity=minor cause=lease-lost object=tenant({})".format
POLICY = "id={} principal=p scope=global critical-allowed=no authorised={}".format
UNTIL = ("{} suppress-until {} " + POLICY("{}", "yes")).format
# A refused one: its end is its time. The operation, the time, the end, and the rest from the id on.
EQUAL = bytes([13]) + bytes(16) + b"\0\0\0\1a" + b"\0\0\0\1p" + bytes(5) + b"\2\0\0\1" + bytes(4)
# Each call with what it leaves, by hand: state, time of the change and end of the alarms a and b, and the suppressions lifted so far.
CALLS = [
    (RAISE("09:00", "a", "a"), [("raised", "09:00", None)], 0),
    (RAISE("09:01", "b", "b"), [("raised", "09:00", None), ("raised", "09:01", None)], 0),
    (UNTIL("09:10", "10:00", "a"), [("suppressed", "09:10", "10:00"), ("raised", "09:01", None)], 0),
    ("09:11 suppress id=b authorised=yes", [("suppressed", "09:10", "10:00"), ("suppressed", "09:11", None)], 0),
    (RAISE("09:20", "c", "a"), [("suppressed", "09:20", "10:00"), ("suppressed", "09:11", None)], 0),
    ("09:21 acknowledge id=a authorised=no", [("suppressed", "09:20", "10:00"), ("suppressed", "09:11", None)], 0),
    ("lift up-to 09:59:59.999999999", [("suppressed", "09:20", "10:00"), ("suppressed", "09:11", None)], 0),
    ("lift up-to 10:00", [("updated", "10:00", None), ("suppressed", "09:11", None)], 1),
    ("lift up-to 12:00", [("updated", "10:00", None), ("suppressed", "09:11", None)], 1),
    (UNTIL("10:30", "11:00", "b"), [("updated", "10:00", None), ("suppressed", "10:30", "11:00")], 1),
    (UNTIL("10:31", "10:40", "a"), [("suppressed", "10:31", "10:40"), ("suppressed", "10:30", "11:00")], 1),
    (UNTIL("10:32", "11:05", "a"), [("suppressed", "10:32", "11:05"), ("suppressed", "10:30", "11:00")], 1),
    ("lift up-to 11:10", [("updated", "11:10", None), ("updated", "11:10", None)], 3),
    (UNTIL("11:20", "12:00", "a"), [("suppressed", "11:20", "12:00"), ("updated", "11:10", None)], 3),
    ("11:21 suppress id=a authorised=yes", [("suppressed", "11:21", None), ("updated", "11:10", None)], 3),
    (UNTIL("11:22", "12:00", "a"), [("suppressed", "11:22", "12:00"), ("updated", "11:10", None)], 3),
    ("11:23 suppress-with-policy " + POLICY("a", "yes"), [("suppressed", "11:23", None), ("updated", "11:10", None)], 3),
    (UNTIL("11:24", "12:00", "b"), [("suppressed", "11:23", None), ("suppressed", "11:24", "12:00")], 3),
    ("11:25 acknowledge id=b authorised=yes", [("suppressed", "11:23", None), ("acknowledged", "11:25", None)], 3),
    (UNTIL("11:26", "12:00", "b"), [("suppressed", "11:23", None), ("suppressed", "11:26", "12:00")], 3),
    ("11:27 clear type=t cause=lease-lost object=tenant(b)", [("suppressed", "11:23", None)], 3),
    (UNTIL("11:28", "12:00", "a"), [("suppressed", "11:28", "12:00")], 3),
    ("expire before 11:29", [], 3),
    ("lift up-to 23:00", [], 3),
]


def listed(*lines, name="until.calls", head=HEAD):
    """A list of these lines, as a file."""
    return saved(name, works("write", "-", given=head + "\n".join(lines) + "\n"))


def rows(*words):
    return list(csv.DictReader(io.StringIO(works(*words, "--csv").decode(), newline="")))


def figures(calls):
    return {row["figure"]: row["value"] for row in rows("recount", calls)}


def shown(row):
    """State, time of the change and end of an alarm, by the clock."""
    clock = [time and time.removeprefix("2026-03-14 ").removesuffix(":00") for time in (row["updated_at"], row["end"])]
    return row["state"], *clock


def by_hand(_root):
    """What each call leaves of states and ends, and how many suppressions were lifted, is as counted by hand; registers stay sound."""
    for count, (call, active, lifted) in enumerate(CALLS, 1):
        calls, register = listed(*(line for line, _, _ in CALLS[:count])), WORK / "until.register"
        whole = json.loads(works("replay", calls, "--json", "-o", register))
        if [shown(row) for row in whole["active"]] != active:
            yield f"after {call}: {[shown(row) for row in whole['active']]}, not {active}"
        if any(row["end"] and row["state"] != "suppressed" for row in whole["history"]):
            yield f"after {call}: history has an end in another state than suppressed"
        if figures(calls)["lifted"] != str(lifted):
            yield f"after {call}: lifted is {figures(calls)['lifted']}, not {lifted}"
        if b"a sound register" not in works("check", register):
            yield f"after {call}: not sound"


def unchanged(_root):
    """Where an action is denied, finds the audit trail full or finds no alarm, the end stays."""
    head = HEAD.replace("audit=12", "audit=1")
    denied, full = "09:20 {} " + POLICY("a", "no"), "09:20 {} " + POLICY("a", "yes")
    for line, answer in [
        ("09:20 suppress id=a authorised=no", "unauthorized"),
        ("09:20 suppress id=b authorised=yes", "not found"),
        (denied.format("acknowledge-with-policy"), "unauthorized"),
        (full.format("acknowledge-with-policy"), "audit failed"),
        (full.format("suppress-with-policy"), "audit failed"),
        (full.format("suppress-until 11:00"), "audit failed"),
        (denied.format("suppress-until 11:00"), "unauthorized"),
    ]:
        calls = listed(RAISE("09:00", "a", "a"), UNTIL("09:10", "10:00", "a"), line, head=head)
        [row] = rows("replay", calls, "--only", "active")
        if shown(row) != ("suppressed", "09:10", "10:00") or figures(calls)[answer] != "1":
            yield f"{line}: {shown(row)}, {answer} is {figures(calls)[answer]}"


def history(_root):
    """History keeps the end of a suppression as it was, a lift adds an entry for each alarm in the order of the active ones, and ends are not compared."""
    suppressed = [RAISE("09:00", "a", "a"), RAISE("09:00", "b", "b"), UNTIL("09:10", "10:01", "a"), UNTIL("09:10", "10:00", "b")]
    for lines, wanted in [
        ([*suppressed, "lift up-to 10:05"], [("suppressed", "09:10", "10:01"), ("suppressed", "09:10", "10:00"), ("updated", "10:05", ""), ("updated", "10:05", "")]),
        ([*suppressed, UNTIL("09:11", "11:00", "b")], [("suppressed", "09:10", "10:01"), ("suppressed", "09:11", "11:00")]),
        ([*suppressed, "09:12 suppress id=b authorised=yes"], [("suppressed", "09:10", "10:01"), ("suppressed", "09:12", "")]),
    ]:
        found = rows("replay", listed(*lines), "--only", "history")[2:]
        if [shown(row) for row in found] != wanted or [row["id"] for row in found][:2] != ["a", "b"]:
            yield f"{lines[-1]}: {[shown(row) for row in found]}"


def inverse(_root):
    """Text and calls are inverse, and the end is written behind the operation, with the time of the zone."""
    calls = listed(*(line for line, _, _ in CALLS))
    for zone in ("UTC", "+01:00", "-09:30"):
        if works("write", "-", given=works("read", calls, "--zone", zone)) != calls.read_bytes():
            yield f"another list after read and write with {zone}"
    text = works("read", calls, "--zone", "+01:00").decode()
    for line in ("2026-03-14 10:10:00 suppress-until 2026-03-14 11:00:00 id=a principal=p scope=global", "\nlift up-to 2026-03-14 10:59:59.999999999\n"):
        if line not in text:
            yield f"not read: {line}"


def told(_root):
    """An end that is not later than the call's time is told where it stands, and so are other faults of the two operations."""
    late = "column {}: the suppression's end is not later than the call's time; write its date where it is on another day".format
    for line, said in [
        (UNTIL("09:10", "09:10", "a"), late(22)),
        (UNTIL("23:30", "02:00", "a"), late(22)),
        (UNTIL("09:10", "10:10 +01:00", "a"), late(22)),
        (UNTIL("09:10", "14 March 2026 09:09:59.999999999", "a"), late(22)),
        (UNTIL("09:10", "1970-01-01 00:00", "a"), late(22)),
        (UNTIL("09:10", "end=10:00", "a"), "column 22: the end stands here: suppress-until 2026-03-14 16:00"),
        (UNTIL("09:10", "24:00", "a"), "column 22: no clock shows this time"),
        (UNTIL("09:10", "09:00", "i" * 65), "column 31: id is 65 bytes long; at most 64 are allowed"),
        ("09:10 suppress-until 10:00 id=a", "column 32: principal= is missing"),
        ("suppress-until 10:00 id=a", "column 1: suppress-until needs its time before it"),
        ("lift 10:00", "column 6: the cutoff is written: lift up-to 2026-03-14 09:30"),
        ("lift before 10:00", "column 6: the cutoff is written: lift up-to 2026-03-14 09:30"),
        ("10:00 lift", "column 7: the cutoff stands behind: lift up-to 2026-03-14 09:30"),
    ]:
        yield from ends(3, f"until.txt: line 3, {said}", "write", saved("until.txt", HEAD + line + "\n"))
    works("write", "-", given=HEAD + UNTIL("23:30", "2026-03-15 02:00", "a") + "\n")
    works("write", "-", given=HEAD + UNTIL("09:10", "09:10:00.000000001", "a") + "\n")


def refused(_root):
    """A suppression whose end is its time is kept as its bytes, refused with 34, and counted so; it changes nothing, and ends no bound."""
    calls = listed(RAISE("09:00", "a", "a"), f"raw {EQUAL.hex()}", f"raw {EQUAL.hex()}00", "raw 0f", "raw 0e")
    text = works("read", calls).decode().splitlines()
    for line, number in zip(text[-4:], (34, 24, 23, 24), strict=True):
        if f" # refused: {number}: " not in line or not line.startswith("raw 0"):
            yield f"{line} is not refused with {number}"
    if works("write", "-", given="\n".join(text) + "\n") != calls.read_bytes():
        yield "another list after read and write"
    answers = [(row["number"], row["answer"], row["first_call"]) for row in rows("replay", calls, "--only", "answers")]
    if ("34", "refused: the suppression's end is not later than the call's time", "2") not in answers or len(answers) != 4:
        yield f"the answers are {answers}"
    if figures(calls)["refused 34"] != "1" or figures(calls)["suppressed"] != "0":
        yield f"the figures are {figures(calls)}"
    reached = json.loads(works("reach", calls, "--at", 1, "--severity", "critical", "--json"))
    if reached["unbounded_from_call"] is not None:
        yield f"bounds end with call {reached['unbounded_from_call']}"
    # 34 comes before 30
    for room, number in (1551, 34), (16, 34):
        short = listed(f"raw {EQUAL.hex()}", "lift up-to 09:00", head=HEAD.replace("\n", f"\nanswer {room}\n", 1))
        if {name for name in figures(short) if name.startswith("refused ")} != {f"refused {number}", "refused 30"}:
            yield f"with slices of {room}: {figures(short)}"


def page(_root):
    """The end stands below the state, with the clock of the zone, of active alarms and in history; scripts have it in a column of its own."""
    calls = listed(RAISE("09:00", "a", "a"), UNTIL("09:10", "10:00:00.123456789", "a"), RAISE("09:01", "b", "b"), "09:12 suppress id=b authorised=yes")
    for name in ("active", "history"):
        printed = works("replay", calls, "--only", name, "--zone", "+01:00")
        yield from too_wide(name, printed, PAGE_WIDTH)
        cells = [line.split("│")[1].strip() for line in printed.decode().splitlines() if line.count("│") > 3]
        at = cells.index("suppressed")
        if cells[at + 1:at + 3] != ["until 11:00:00.123456789", "14 Mar 2026"] or printed.decode().count("until") != 1:
            yield f"{name}: {printed.decode()}"
    found = [(row["state"], row["end"]) for row in rows("replay", calls, "--only", "active", "--zone", "+01:00")]
    if found != [("suppressed", "2026-03-14 11:00:00.123456789"), ("suppressed", "")]:
        yield f"scripts have {found}"
    if [row["end"] for row in json.loads(works("replay", calls, "--json"))["active"]] != ["2026-03-14 10:00:00.123456789", None]:
        yield "JSON has other ends"


def headline(_root):
    """An alarm that is suppressed until a time is off the headline, behind that time too, until it is lifted."""
    calls = [RAISE("09:00", "a", "a"), UNTIL("09:10", "10:00", "a"), RAISE("11:00", "c", "a"), "lift up-to 11:01"]
    for count, wanted in (1, ("minor", "0")), (2, ("none", "1")), (3, ("none", "1")), (4, ("minor", "0")):
        [row] = rows("replay", listed(*calls[:count]), "--only", "summary")
        if (row["worst"], row["suppressed"]) != wanted:
            yield f"after {calls[count - 1]}: {row}"


def reaches(_root):
    """An answered suppress-until behind the raise ends the bounds; a lift does not, and lifts as many in both runs."""
    before = [RAISE("09:00", "a", "a"), RAISE("09:01", "b", "b"), UNTIL("09:10", "10:00", "a")]
    calls = listed(*before, RAISE("09:30", "c", "b"), RAISE("09:31", "d", "a"), "lift up-to 10:00", "lift up-to 11:00")
    for at in (4, 5):
        got = json.loads(works("reach", calls, "--at", at, "--severity", "critical", "--json"))
        lifted = {row["figure"]: row for row in got["figures"]}["lifted"]
        if got["unbounded_from_call"] is not None or not got["bounds_hold"]:
            yield f"call {at}: {got['unbounded_from_call']}, {got['bounds_hold']}"
        if (lifted["as_listed"], lifted["as_changed"], lifted["bound"]) != ("1", "1", "equal"):
            yield f"call {at}: lifted is {lifted}"
    for at in (1, 2):
        got = json.loads(works("reach", calls, "--at", at, "--severity", "critical", "--json"))
        bounds = [row["bound"] for row in got["figures"] if row["bound"]]
        if got["unbounded_from_call"] != 3 or bounds:
            yield f"call {at}: bounds end with {got['unbounded_from_call']}, and are {bounds}"
    lifted = {row["figure"]: (row["as_listed"], row["as_changed"]) for row in rows("reach", calls, "--at", 1, "--severity", "critical")}["lifted"]
    if lifted != ("1", "0"):
        yield f"a critical severity does not stop the suppression: {lifted}"


def balanced(_root):
    """What is lifted was active and stays so: it is no part of the balance. A report without it differs where something was lifted."""
    calls = listed(RAISE("09:00", "a", "a"), RAISE("09:01", "b", "b"), UNTIL("09:10", "10:00", "a"), UNTIL("09:10", "10:00", "b"), "lift up-to 10:00")
    balance = "\nBalance of the raw calls: raised 2 = active at end 2 + cleared 0 + expired 0.\n"
    if figures(calls)["lifted"] != "2" or not works("recount", calls).decode().endswith(balance):
        yield f"the page ends with {works('recount', calls).decode()[-200:]}"
    lines = (HERE / "examples/day.csv").read_text(encoding="utf-8").splitlines(keepends=True)
    before = saved("before.csv", "".join(line for line in lines if not line.startswith("lifted,")))
    compared = json.loads(works("recount", DAY, "--against", before, "--json", status=1))
    differing = {row["figure"]: row["difference"] for row in compared["figures"] if row["difference"] is not None}
    if differing != {"lifted": "-1"} or not compared["balance"]["report"]["holds"]:
        yield f"a report from before differs in {differing}"
    works("recount", DAY, "--against", before, "--partial")


def twins(_root):
    """Other texts change no end and no lift."""
    said = json.loads(works("twin", listed(*(line for line, _, _ in CALLS)), "--json"))
    if not said["same"]:
        yield f"{said}"


def checked(_root):
    """An end is sound in state suppressed, of any time, and is told where another state has one; an absent one has no time."""
    register = WORK / "until.register"
    works("replay", listed(RAISE("09:00", "a", "a"), UNTIL("09:10", "10:00", "a")), "-o", register)
    whole = register.read_bytes()
    first = {head: int.from_bytes(whole[head:head + 4], "big") * WIDTH for head in (ACTIVE, HISTORY, FREE)}
    last = int.from_bytes(whole[first[HISTORY]:first[HISTORY] + 4], "big") * WIDTH
    cases = [(record + STATE, bytes([state]), record + END, f"an end is present in state {STATES[state]}, and only suppressed has one")
             for record, states in ((first[ACTIVE], (0, 1, 2)), (last, (0, 1, 2, 4, 5))) for state in states]
    cases += [(record + END + 1, time, None, "") for record in (first[ACTIVE], last) for time in (bytes(8), b"\xff" * 8, b"\x7f" + b"\xff" * 7)]
    cases += [(record + END, bytes(9), None, "") for record in (first[ACTIVE], last)]
    cases += [
        (first[ACTIVE] + END, b"\2", first[ACTIVE] + END, "the option byte of end is 2, not 0 to 1"),
        (first[ACTIVE] + END, bytes(8) + b"\7", first[ACTIVE] + END + 8, "a byte without meaning is 7, not zero"),
        (first[HISTORY] + END, b"\1", first[HISTORY] + END, "an end is present in state raised, and only suppressed has one"),
        (first[FREE] + END, b"\1", first[FREE] + END, "a byte without meaning is 1, not zero"),
        (END, b"\1", END, "a byte without meaning is 1, not zero"),
    ]
    for at, data, place, what in cases:
        damaged = saved("damaged.register", whole[:at] + data + whole[at + len(data):])
        said = json.loads(works("check", damaged, "--json", status=0 if place is None else 1))
        if said["sound"] != (place is None) or [(found["byte"], found["what"]) for found in said["places"]][:1] != ([] if place is None else [(place, what)]):
            yield f"{data!r} at byte {at}: {said}"


CHECKS = {
    "suppressions end when they are lifted": by_hand,
    "ends where nothing changes": unchanged,
    "ends in history": history,
    "ends and cutoffs are written and read": inverse,
    "ends that are not later are told": told,
    "suppressions that end before they begin are refused": refused,
    "ends stand below states": page,
    "suppressions until a time on the headline": headline,
    "a wrong severity and suppressions until a time": reaches,
    "lifts in the balance and in reports": balanced,
    "twins of suppressions until a time": twins,
    "registers with ends": checked,
}
