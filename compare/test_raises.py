"""Whether raises are counted as document 02 has it (M-100): the model on the smallest inputs that tell readings apart, and whether these
tell wrong ways to count from the right one. compare/test_differential.py runs these checks, and tries the same ways in the register's place."""
import model
import wrong_raises
from calls import call
from differential import Outcome
from orders import Step
from records import LAYOUT, MOST_RAISES, RAISES_WIDTH, WIDTH, alarm_of, alarm_record, put_raises, raises_at, unlinked
from test_model import RB, Station, after, unlike
from twins import differ

RAISE, RAISE_B, CLEAR, EXPIRE = (1, {}), (1, RB), (2, {}), (7, dict(time=1))
ACKNOWLEDGE, SUPPRESS, BY_POLICY, SUPPRESS_BY_POLICY = (3, {}), (4, {}), (5, {}), (6, {})
UNTIL, LIFT = (13, {}), (14, dict(time=1))
MAJOR = (1, dict(severity=4))
TAKEN = (1, dict(object=(6, b"b")))  # another key with an id that is active
REPORTS = [(op, {}) for op in range(8, 12)] + [(12, dict(n=1))]


def raises(station, chain):
    return [alarm["raises"] for alarm in station.alarms(chain)]


# ---- from a fresh register

# calls; the code of the last answer, or a refusal's number; the raises along the active chain and along history
LISTS = {
    "raised": ([RAISE], 1, [1], [1]),
    "raised again": ([RAISE, RAISE], 2, [2], [1, 2]),
    "raised three times": ([RAISE, RAISE, RAISE], 2, [3], [1, 3]),
    "raised with another severity": ([RAISE, RAISE, MAJOR], 2, [3], [1, 2, 3]),
    "the second of two": ([RAISE, RAISE_B, RAISE_B], 2, [1, 2], [1, 1, 2]),
    "both in turn": ([RAISE, RAISE_B, RAISE, RAISE_B, RAISE], 2, [3, 2], [2, 2, 3]),
    "an id that is active": ([RAISE, TAKEN], 31, [1], [1]),
    "no such alarm to clear": ([RAISE, (2, RB)], 4, [1], [1]),
    "acknowledged": ([RAISE, ACKNOWLEDGE], 7, [1], [1, 1]),
    "raised again, then acknowledged": ([RAISE, RAISE, ACKNOWLEDGE], 7, [2], [1, 2, 2]),
    "raised again, then suppressed": ([RAISE, RAISE, SUPPRESS], 6, [2], [1, 2, 2]),
    "raised again, then acknowledged by policy": ([RAISE, RAISE, BY_POLICY], 7, [2], [1, 2, 2]),
    "raised again, then suppressed by policy": ([RAISE, RAISE, SUPPRESS_BY_POLICY], 6, [2], [1, 2, 2]),
    "raised again, then suppressed until a time": ([RAISE, RAISE, UNTIL], 6, [2], [1, 2, 2]),
    "raised while suppressed until a time": ([RAISE, UNTIL, RAISE], 2, [2], [1, 2]),
    "lifted": ([RAISE, UNTIL, LIFT], 11, [1], [1, 1, 1]),
    "raised again while suppressed until a time, then lifted": ([RAISE, UNTIL, RAISE, LIFT], 11, [2], [1, 2, 2]),
    "lifted and raised again": ([RAISE, UNTIL, LIFT, RAISE], 2, [2], [1, 1, 2]),
    "an end not later than the time": ([RAISE, (13, dict(end=0))], 34, [1], [1]),
    "raised while acknowledged": ([RAISE, ACKNOWLEDGE, RAISE], 2, [2], [1, 2]),
    "raised while suppressed": ([RAISE, SUPPRESS, RAISE], 2, [2], [1, 2]),
    "raised while suppressed by policy": ([RAISE, SUPPRESS_BY_POLICY, RAISE], 2, [2], [1, 2]),
    "an acknowledge that is not authorised": ([RAISE, RAISE, (3, dict(authorised=0))], 8, [2], [1, 2]),
    "the audit chain is full": ([RAISE, RAISE, BY_POLICY, BY_POLICY], 9, [2], [1, 2, 2]),
    "an unknown id": ([RAISE, (3, RB)], 10, [1], [1]),
    "cleared": ([RAISE, CLEAR], 3, [], [1, 1]),
    "raised again, then cleared": ([RAISE, RAISE, CLEAR], 3, [], [1, 2, 2]),
    "cleared and raised anew": ([RAISE, RAISE, CLEAR, RAISE], 1, [1], [2, 2, 1]),
    "expired": ([RAISE, EXPIRE], 11, [], [1, 1]),
    "raised again, then expired": ([RAISE, RAISE, EXPIRE], 11, [], [1, 2, 2]),
    "two expired": ([RAISE, RAISE, RAISE_B, EXPIRE], 11, [], [1, 2, 1]),
    "expired and raised anew": ([RAISE, RAISE, EXPIRE, RAISE], 1, [1], [2, 2, 1]),
    "reports": ([RAISE, RAISE, *REPORTS], 11, [2], [1, 2]),
}
AT_THE_LIMIT = [RAISE, RAISE_B], 5, [1], [1]


def row(name, station, calls, code, active, history):
    yield from unlike(f"{name}: code or number", station.codes(*calls)[-1], code)
    yield from unlike(f"{name}: active", raises(station, "active"), active)
    yield from unlike(f"{name}: history", raises(station, "history"), history)


def lists(_root):
    for name, wanted in LISTS.items():
        yield from row(name, Station(), *wanted)
    yield from row("at the active limit", Station(a=1), *AT_THE_LIMIT)
    yield from row("room for one entry", Station(h=1), [RAISE, RAISE, MAJOR, MAJOR], 2, [4], [4])


def refused(_root):
    """A raise that would be answered Updated, had its answer slice room."""
    station = after(RAISE)
    yield from unlike("number", station.step(call(1), 1551), 30)
    yield from unlike("raises", raises(station, "active") + raises(station, "history"), [1, 1])


# ---- from raises that a record holds

# raises of the active alarm, calls; then its raises, and those of the newest entry
HELD = [
    (0, [RAISE], [1], 1),
    (0, [RAISE, RAISE], [2], 2),
    (0, [ACKNOWLEDGE], [0], 0),
    (0, [CLEAR], [], 0),
    (0, [EXPIRE], [], 0),
    (1, [RAISE], [2], 2),
    (0x000000FF, [RAISE], [0x00000100], 0x00000100),
    (0x0000FFFF, [RAISE], [0x00010000], 0x00010000),
    (0x7FFFFFFF, [RAISE], [0x80000000], 0x80000000),
    (MOST_RAISES - 2, [RAISE], [MOST_RAISES - 1], MOST_RAISES - 1),
    (MOST_RAISES - 1, [RAISE], [MOST_RAISES], MOST_RAISES),
    (MOST_RAISES - 1, [RAISE, RAISE], [MOST_RAISES], MOST_RAISES),
    (MOST_RAISES, [RAISE], [MOST_RAISES], MOST_RAISES),
    (MOST_RAISES, [ACKNOWLEDGE, RAISE], [MOST_RAISES], MOST_RAISES),
    (MOST_RAISES - 1, [SUPPRESS], [MOST_RAISES - 1], MOST_RAISES - 1),
    (MOST_RAISES, [CLEAR], [], MOST_RAISES),
    (MOST_RAISES, [EXPIRE], [], MOST_RAISES),
    (MOST_RAISES, [CLEAR, RAISE], [1], 1),
]


def holding(*counts, **limits):
    """A station with R, or R and Rb, raised, which hold these raises on the active chain."""
    station = after(*[RAISE, RAISE_B][:len(counts)], **limits)
    for index, count in zip(station.chain("active"), counts):
        put_raises(station.register, count, index)
    return station


def held(_root):
    for count, calls, active, newest in HELD:
        station = holding(count)
        station.codes(*calls)
        yield from unlike(f"{count} and {calls}", (raises(station, "active"), raises(station, "history")[-1]), (active, newest))


def same_entry(_root):
    """The newest entry is overwritten whatever count it holds, and becomes the changed alarm whole."""
    for count in (0, 2, 3, 7, MOST_RAISES):
        station = after(RAISE, RAISE)
        put_raises(station.register, count, station.chain("history")[-1])
        station(1)
        yield from unlike(f"{count} in the newest entry", raises(station, "history"), [1, 3])


def of_one_key(*counts):
    """A station with two active alarms of one key."""
    station = holding(*counts)
    first, second = station.chain("active")
    alarm = alarm_of(unlinked(station.register, second)) | {"key": station.alarms("active")[0]["key"]}
    station.register[WIDTH * second + 4:WIDTH * (second + 1)] = alarm_record(alarm)[4:]
    return station


def first_match(_root):
    """Of two active alarms with one key the first is counted."""
    station = of_one_key(5, 5)
    yield from unlike("code", station(1), 2)
    yield from unlike("raises", raises(station, "active"), [6, 5])


# ---- bytes

def in_bytes(_root):
    """Raises are big-endian and stand in every alarm record that is answered."""
    station, at = holding(0x01020303, e=2), LAYOUT["alarm"]["raises"]
    station(1)
    for name, start in [("active", station.chain("active")[0]), ("history", station.chain("history")[-1])]:
        found = station.register[WIDTH * start + at:WIDTH * start + at + RAISES_WIDTH]
        yield from unlike(f"{name} record", found.hex(), "01020304")
    for op, values, wanted in [(1, {}, "01020305"), (3, {}, "01020305"), (4, {}, "01020305"), (5, {}, "01020305"), (6, {}, "01020305"),
                               (8, {}, "01020305"), (1, RB, "00000001")]:
        station(op, **values)
        yield from unlike(f"operation {op}", station.body[at:at + RAISES_WIDTH].hex(), wanted)
    station(9)
    answered = [raises_at(station.body[start:start + WIDTH]) for start in range(0, len(station.body), WIDTH)]
    yield from unlike("operation 9", (len(answered), answered), (3, raises(station, "history")))


def sound(_root):
    """Any raises of an alarm are sound, on both chains; the same bytes of an event, a free record and the header are without meaning."""
    station = after(RAISE, BY_POLICY)
    legal = station.chain("active") + station.chain("history")
    yield from unlike("alarms, events and free records", [len(station.chain(name)) for name in ("active", "history", "audit", "free")], [1, 2, 1, 2])
    for index in range(len(station.register) // WIDTH):
        for value in (1, 0x100, 0x10000, 0x1000000, 0x80000000, MOST_RAISES):
            changed = bytearray(station.register)
            put_raises(changed, value, index)
            yield from unlike(f"{value} in record {index}", model.step(changed, call(10), bytearray(2000))[0], 0 if index in legal else 22)
    for chain in ("active", "history"):
        changed = bytearray(station.register)
        put_raises(changed, 0, station.chain(chain)[0])
        yield from unlike(f"0 on the {chain} chain", model.step(changed, call(10), bytearray(2000))[0], 0)


def beside_reserved(_root):
    """The bytes behind the raises are the end's, and those behind it still without meaning."""
    at = LAYOUT["alarm"]["raises"] + RAISES_WIDTH
    for byte in range(at, WIDTH):
        station = after(RAISE)
        station.register[WIDTH + byte] = 1
        yield from unlike(f"byte {byte}", station(10), 22)


# ---- twins

def twins(_root):
    """Twins have the same raises, and lists that have not are none: in the register and in an answer."""
    calls = [RAISE, RAISE, ACKNOWLEDGE, RAISE, CLEAR, RAISE, RAISE]
    other = [(op, values | (dict(text=b"x" * n, details=b"d") if op == 1 else {})) for n, (op, values) in enumerate(calls)]
    for n in range(1, len(calls) + 1):
        one, two = after(*calls[:n]), after(*other[:n])
        for chain in ("active", "history"):
            yield from unlike(f"{chain} after {n} calls", raises(one, chain), raises(two, chain))
    order, answer = Step(call(8), 16 + WIDTH), bytearray(16) + alarm_record(one.alarms("active")[0])
    outcome = Outcome(0, len(answer), answer, one.register)
    for place, start in (("register", WIDTH * one.chain("active")[0]), ("answer", 16)):
        changed = bytearray(getattr(outcome, place))
        changed[start + LAYOUT["alarm"]["raises"]] ^= 1
        found = differ(order, outcome, outcome._replace(**{place: changed}))
        yield from unlike(place, found, f"twins: {place}s differ outside text and details")


# ---- wrong ways to count

SMALLEST = {"lists": lists, "held": held, "the same entry": same_entry, "the first match": first_match}


def told(check, wrong):
    with wrong():
        return bool(list(check(None)))


def ways(_root):
    """The smallest inputs tell each wrong way to count from the right one; what shows only on given registers is not told by lists."""
    for name, wrong in (wrong_raises.WRONG | wrong_raises.WRONG_ON_GIVEN).items():
        if not any(told(check, wrong) for check in SMALLEST.values()):
            yield f"{name} is not told"
        if told(lists, wrong) != (name in wrong_raises.WRONG):
            yield f"{name}: told by lists from a fresh register: {told(lists, wrong)}"


CHECKS = {
    "raises: lists from a fresh register": lists,
    "raises: a call that is refused": refused,
    "raises: from what a record holds": held,
    "raises: no part of sameness": same_entry,
    "raises: the first match": first_match,
    "raises: bytes": in_bytes,
    "raises: any value is sound": sound,
    "raises: the bytes behind them": beside_reserved,
    "raises: twins": twins,
    "raises: wrong ways to count": ways,
}
