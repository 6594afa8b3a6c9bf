"""Whether alarms are suppressed until a time and lifted as document 02 has it (M-105): the model on the smallest inputs that tell readings apart,
and whether these tell wrong ways from the right one. compare/test_differential.py runs these checks, and tries the same ways in the register's
place."""
import always
import model
import twins as law
import wrong_ends
import wrong_lifts
from calls import call
from differential import Outcome
from orders import Step
from records import LAYOUT, WIDTH, alarm_record, put
from test_model import RB, Station, after, unlike
from timed import EARLIEST, LATEST
from wrong_raises import replaced

RAISE, RAISE_B, CLEAR = (1, {}), (1, RB), (2, {})
ACKNOWLEDGE, SUPPRESS, BY_POLICY, SUPPRESS_BY_POLICY = (3, {}), (4, {}), (5, {}), (6, {})
CRITICAL, ALLOWED = (1, dict(severity=5)), dict(critical_allowed=1)
DENIED = dict(authorised=0)
E2, H4 = dict(e=2), dict(e=2, h=4)
# operation 13 on the worked call's alarm, at time 0, until 1: document 02's reading has these bytes
WORKED = "0d 0000000000000000 0000000000000001 00000001 61 00000001 70 00 00000000 02 00 00 01 00000002 6e6f"


def until(end, **values):
    return 13, dict(end=end, **values)


def lift(cutoff):
    return 14, dict(time=cutoff)


def at(time, **values):
    return 1, dict(time=time, **values)


def expire(cutoff):
    return 7, dict(time=cutoff)


R0 = ("a", 0, None)  # the entry of the first raise
# limits and calls; the code of the last answer, or a refusal's number; then state, end and updated_at along the active chain, and id, state and
# end along history
SUPPRESSIONS = {
    "until 1": ({}, [RAISE, until(1)], 6, [(3, 1, 0)], [R0, ("a", 3, 1)]),
    "of an updated alarm": ({}, [RAISE, RAISE, until(1)], 6, [(3, 1, 0)], [R0, ("a", 1, None), ("a", 3, 1)]),
    "of an acknowledged alarm": ({}, [RAISE, ACKNOWLEDGE, until(1)], 6, [(3, 1, 0)], [R0, ("a", 2, None), ("a", 3, 1)]),
    "of a suppressed alarm": ({}, [RAISE, SUPPRESS, until(1)], 6, [(3, 1, 0)], [R0, ("a", 3, 1)]),
    "the end is the call's time": ({}, [RAISE, until(0)], 34, [(0, None, 0)], [R0]),
    "the end is before the call's time": ({}, [RAISE, until(-1)], 34, [(0, None, 0)], [R0]),
    "a negative time": ({}, [RAISE, until(0, time=-1)], 6, [(3, 0, 0)], [R0, ("a", 3, 0)]),
    "both are negative": ({}, [RAISE, until(-1, time=-2)], 6, [(3, -1, 0)], [R0, ("a", 3, -1)]),
    "both are negative and equal": ({}, [RAISE, until(-2, time=-2)], 34, [(0, None, 0)], [R0]),
    "at the latest time": ({}, [RAISE, until(LATEST, time=LATEST)], 34, [(0, None, 0)], [R0]),
    "at the latest time, until the earliest": ({}, [RAISE, until(EARLIEST, time=LATEST)], 34, [(0, None, 0)], [R0]),
    "from the earliest time to the latest": ({}, [RAISE, until(LATEST, time=EARLIEST)], 6, [(3, LATEST, 0)], [R0, ("a", 3, LATEST)]),
    "34 on an unknown id": ({}, [RAISE, until(0, id=b"x")], 34, [(0, None, 0)], [R0]),
    "an unknown id": ({}, [RAISE, until(1, id=b"x")], 10, [(0, None, 0)], [R0]),
    "an end before raised_at": ({}, [at(2), until(1)], 6, [(3, 1, 2)], [R0, ("a", 3, 1)]),
    "an earlier end": (E2, [RAISE, until(2), until(1)], 6, [(3, 1, 0)], [R0, ("a", 3, 1)]),
    "a later end": (E2, [RAISE, until(1), until(2)], 6, [(3, 2, 0)], [R0, ("a", 3, 2)]),
    "a critical alarm": ({}, [CRITICAL, until(1)], 8, [(0, None, 0)], [R0]),
    "a critical alarm, allowed": ({}, [CRITICAL, until(1, **ALLOWED)], 6, [(3, 1, 0)], [R0, ("a", 3, 1)]),
    "not authorised": ({}, [RAISE, until(1, **DENIED)], 8, [(0, None, 0)], [R0]),
    "the audit chain is full": ({}, [RAISE, BY_POLICY, until(1)], 9, [(2, None, 0)], [R0, ("a", 2, None)]),
}
KEPT = [(3, 1, 0)], [R0, ("a", 3, 1)]
BEHIND = {
    "plain suppress": ({}, [RAISE, until(1), SUPPRESS], 6, [(3, None, 0)], [R0, ("a", 3, None)]),
    "acknowledge": ({}, [RAISE, until(1), ACKNOWLEDGE], 7, [(2, None, 0)], [R0, ("a", 3, 1), ("a", 2, None)]),
    "acknowledge with policy": (E2, [RAISE, until(1), BY_POLICY], 7, [(2, None, 0)], [R0, ("a", 3, 1), ("a", 2, None)]),
    "suppress with policy": (E2, [RAISE, until(1), SUPPRESS_BY_POLICY], 6, [(3, None, 0)], [R0, ("a", 3, None)]),
    "suppress with policy, audit full": ({}, [RAISE, until(1), SUPPRESS_BY_POLICY], 9, *KEPT),
    "until 2, audit full": ({}, [RAISE, until(1), until(2)], 9, *KEPT),
    "acknowledge, not authorised": ({}, [RAISE, until(1), (3, DENIED)], 8, *KEPT),
    "plain suppress, not authorised": ({}, [RAISE, until(1), (4, DENIED)], 8, *KEPT),
    "until 2, not authorised": (E2, [RAISE, until(1), until(2, **DENIED)], 8, *KEPT),
    "raised after the end": ({}, [RAISE, until(1), at(5)], 2, [(3, 1, 5)], [R0, ("a", 3, 1)]),
    "raised as critical": ({}, [RAISE, until(1), CRITICAL], 2, [(3, 1, 0)], [R0, ("a", 3, 1), ("a", 3, 1)]),
    "cleared": ({}, [RAISE, until(1), CLEAR], 3, [], [R0, ("a", 3, 1), ("a", 4, None)]),
    "expired before the end": ({}, [RAISE, until(2), expire(1)], 11, [], [R0, ("a", 3, 2), ("a", 5, None)]),
    "expired after the end": ({}, [RAISE, until(1), expire(2)], 11, [], [R0, ("a", 3, 1), ("a", 5, None)]),
    "cleared and raised anew": (H4, [RAISE, until(1), CLEAR, RAISE], 1, [(0, None, 0)], [R0, ("a", 3, 1), ("a", 4, None), R0]),
}
# the same, with the number that the last call tells before the code
LIFTS = {
    "at the end": ({}, [RAISE, until(1), lift(1)], 1, [(1, None, 1)], [R0, ("a", 3, 1), ("a", 1, None)]),
    "before the end": ({}, [RAISE, until(2), lift(1)], 0, [(3, 2, 0)], [R0, ("a", 3, 2)]),
    "after the end": ({}, [RAISE, until(1), lift(2)], 1, [(1, None, 2)], [R0, ("a", 3, 1), ("a", 1, None)]),
    "no end": ({}, [RAISE, SUPPRESS, lift(9)], 0, [(3, None, 0)], [R0, ("a", 3, None)]),
    "the end was removed": ({}, [RAISE, until(1), SUPPRESS, lift(1)], 0, [(3, None, 0)], [R0, ("a", 3, None)]),
    "not suppressed": ({}, [RAISE, RAISE_B, ACKNOWLEDGE, lift(9)], 0, [(2, None, 0), (0, None, 0)], [R0, ("b", 0, None), ("a", 2, None)]),
    "raised_at after the cutoff": ({}, [at(2), until(1), lift(1)], 1, [(1, None, 2)], [R0, ("a", 3, 1), ("a", 1, None)]),
    "raised meanwhile": ({}, [RAISE, until(1), at(2), lift(1)], 1, [(1, None, 1)], [R0, ("a", 3, 1), ("a", 1, None)]),
    "negative times": ({}, [at(-9), until(-2, time=-3), lift(-2)], 1, [(1, None, -2)], [R0, ("a", 3, -2), ("a", 1, None)]),
    "a negative end": ({}, [at(-9), until(-2, time=-3), lift(0)], 1, [(1, None, 0)], [R0, ("a", 3, -2), ("a", 1, None)]),
    "a negative cutoff": ({}, [RAISE, until(1), lift(-1)], 0, *KEPT),
    "the latest end": ({}, [RAISE, until(LATEST), lift(LATEST)], 1, [(1, None, LATEST)], [R0, ("a", 3, LATEST), ("a", 1, None)]),
    "by the order of the chain": (H4, [RAISE, RAISE_B, until(2), until(1, id=b"b"), lift(2)], 2, [(1, None, 2), (1, None, 2)],
                                  [("a", 3, 2), ("b", 3, 1), ("a", 1, None), ("b", 1, None)]),
    "the second of two": (H4, [RAISE, RAISE_B, until(2), until(1, id=b"b"), lift(1)], 1, [(3, 2, 0), (1, None, 1)],
                          [("b", 0, None), ("a", 3, 2), ("b", 3, 1), ("b", 1, None)]),
    "beside one without an end": (H4, [RAISE, RAISE_B, SUPPRESS, until(1, id=b"b"), lift(1)], 1, [(3, None, 0), (1, None, 1)],
                                  [("b", 0, None), ("a", 3, None), ("b", 3, 1), ("b", 1, None)]),
    "a second time": ({}, [RAISE, until(1), lift(1), lift(2)], 0, [(1, None, 1)], [R0, ("a", 3, 1), ("a", 1, None)]),
    "ended": ({}, [RAISE, until(1), CLEAR, lift(1)], 0, [], [R0, ("a", 3, 1), ("a", 4, None)]),
    "history is full": (dict(h=2), [RAISE, until(1), lift(1)], 1, [(1, None, 1)], [("a", 3, 1), ("a", 1, None)]),
}


def held(station):
    """State, end and updated_at along the active chain; id, state and end along history."""
    return ([(alarm["state"], alarm["end"], alarm["updated_at"]) for alarm in station.alarms("active")],
            [(alarm["id"].decode(), alarm["state"], alarm["end"]) for alarm in station.alarms("history")])


def rows(table):
    def check(_root):
        for name, (limits, calls, code, *wanted) in table.items():
            station = Station(**limits)
            yield from unlike(f"{name}: code or number", station.codes(*calls)[-1], code)
            yield from unlike(name, held(station), tuple(wanted))
    return check


def lifts(_root):
    for name, (limits, calls, told, *wanted) in LIFTS.items():
        station = Station(**limits)
        last = station.codes(*calls)[-1]
        yield from unlike(f"{name}: code, count, number and body", (last, station.count, station.n, station.body), (11, 0, told, b""))
        yield from unlike(name, held(station), tuple(wanted))


suppressions, behind = rows(SUPPRESSIONS), rows(BEHIND)


# ---- bytes of calls and records

def in_bytes(_root):
    """The worked call, and where an end stands in the records of the register and of answers."""
    yield from unlike("the call", call(13, principal=b"p"), bytes.fromhex(WORKED))
    station, end = after(RAISE, until(0x0102030405060708), e=2), "010102030405060708"
    start = LAYOUT["alarm"]["end"]["present"]
    yield from unlike("the answer", station.body[start:start + 9].hex(), end)
    for op in (8, 9):
        station(op)
        yield from unlike(f"operation {op}", station.body[-WIDTH + start:][:9].hex(), end)
    for name, index in (("active", station.chain("active")[0]), ("history", station.chain("history")[-1])):
        yield from unlike(name, station.register[WIDTH * index + start:WIDTH * index + start + 9].hex(), end)
    station(14, time=LATEST)
    yield from unlike("lifted", station.register[WIDTH + start:WIDTH + start + 9], bytes(9))
    yield from unlike("a negative end", after(RAISE, until(-2, time=-3)).body[start:start + 9].hex(), "01fffffffffffffffe")


def faults(_root):
    """Which fault of a call comes first, and what comes before and behind 34."""
    same, later, cutoff = call(13, end=0), call(13), call(14)
    for data, room, wanted in [
        (same, 2000, 34), (same + b"\0", 2000, 24), (same[:-1], 2000, 24), (same[:17], 2000, 24), (same[:16], 2000, 24), (same, 1551, 34),
        (same, 0, 34), (later, 1551, 30), (call(13, id=b"x"), 1551, 30), (later + b"\0", 1551, 24), (later, 1552, 0),
        (call(13, end=0, denial=b"\xff"), 2000, 27), (call(13, end=0, id=b"i" * 65), 2000, 26),
        (call(13, end=0, authorised=2), 2000, 25), (call(13, end=0, scope=(3,)), 2000, 25),
        (call(13, end=0, reason=b"x" * 256), 2000, 34), (call(13, reason=b"x" * 256), 2000, 0), (cutoff, 1551, 30), (cutoff, 16, 30),
        (cutoff, 1552, 0), (cutoff + b"\0", 0, 24), (cutoff[:-1], 2000, 24), (b"\x0d", 2000, 24), (b"\x0e", 2000, 24), (b"\x0f", 2000, 23),
    ]:
        yield from unlike(f"{data.hex()} with room for {room}", after(RAISE).step(data, room), wanted)
    unsound_ = after(RAISE)
    unsound_.register[WIDTH - 1] = 1
    yield from unlike("on an unsound register", unsound_.step(same), 22)


def events(_root):
    """Operation 13's event is operation 6's: a suppress, at the later of the call's time and raised_at; the gates are in the same order."""
    for values in ({}, DENIED, ALLOWED, dict(time=-5), dict(time=7, tenant=b"t", principal=b"p", scope=(0, b"s"), reason=b"r", correlation=b"c")):
        for first in (RAISE, CRITICAL, at(3, cause=b"key-unavailable")):
            one, other = after(first), after(first)
            one(6, **values)
            other(13, **{"end": 9} | values)
            found, wanted = ((station.code, station.events(), station.counters()) for station in (other, one))
            yield from unlike(f"{first} and {values}: code, events and counters", found, wanted)
            if one.code == 8:
                yield from unlike("message", other.body, one.body)
    station = after(RAISE, until(1))
    yield from unlike("action, outcome and time", [station.events()[0][name] for name in ("action", "outcome", "occurred_at")], [1, 0, 0])
    yield from unlike("records", [station.chain(name) for name in ("active", "audit", "history")], [[1], [3], [2, 4]])


def untouched(_root):
    """No other field is changed by a lift: its alarm with state and times as they were is the one before; raises are not counted."""
    raised = (1, dict(severity=4, text=b"x", details=b"d", region=b"r", time=3))
    station = after(raised, raised, until(9))
    before, = station.alarms("active")
    station(14, time=9)
    now, = station.alarms("active")
    yield from unlike("lifted", now, before | {"state": 1, "end": None, "updated_at": 9})
    yield from unlike("its entry", station.alarms("history")[-1], now)
    yield from unlike("the headline while suppressed", after(raised, until(9), (11, {})).body[:2], bytes([255, 0]))
    yield from unlike("the headline when lifted", after(raised, until(9), lift(9), (11, {})).body[:2], bytes([4, 1]))
    yield from unlike("counters", station.counters(), [1, 0])


# ---- registers that are given

def holding(alarm, entry):
    station = Station()
    station.register[:] = always.holding(alarm, entry).register
    return station


def sameness(_root):
    """An entry like a lifted alarm is overwritten, and two alarms of equal fields share one; the number is that of the alarms."""
    station = holding(dict(state=3, end=1), dict(state=1))
    yield from unlike("into the newest entry", (station(14, time=1), station.n, held(station)), (11, 1, ([(1, None, 1)], [("a", 1, None)])))
    station.register[:] = always.doubled(dict(state=3, end=1), dict(state=3, end=2)).register
    yield from unlike("two into one", (station(14, time=2), station.n, held(station)), (11, 2, ([(1, None, 2)] * 2, [("a", 1, None)])))


def sound(_root):
    """An end is sound in state 3 alone, on both chains; its option byte is 0 or 1, and where it is 0 its time is zero."""
    start = LAYOUT["alarm"]["end"]["present"]
    for state in range(6):
        for end in (None, EARLIEST, -1, 0, 1, LATEST):
            for chain, station in (("active", holding(dict(state=state, end=end), {})), ("history", holding({}, dict(state=state, end=end)))):
                legal = (end is None or state == 3) and not (chain == "active" and state > 3)
                yield from unlike(f"state {state}, end {end}, {chain}", station(10), 11 if legal else 22)
    station = after(RAISE, until(1), CLEAR, RAISE, SUPPRESS, h=5)
    timed, = [index for index in station.chain("history") if station.register[WIDTH * index + start]]
    for index in range(len(station.register) // WIDTH):
        for place in range(start, start + 9):
            changed = bytearray(station.register)
            changed[WIDTH * index + place] ^= 2
            legal = index == timed and place > start
            yield from unlike(f"record {index}, byte {place}", model.step(changed, call(10), bytearray(2000))[0], 0 if legal else 22)
    for index, legal in ((timed, False), (station.chain("active")[0], True)):
        changed = bytearray(station.register)
        changed[WIDTH * index + start] ^= 1
        yield from unlike(f"record {index} with the other option byte", model.step(changed, call(10), bytearray(2000))[0], 0 if legal else 22)


# ---- twins

def twins(_root):
    """Twins have the same ends, and lists that have not are none: in the register and in an answer."""
    calls = [RAISE, until(1), RAISE, lift(0), lift(1), RAISE, (12, dict(n=1)), until(2), SUPPRESS, CLEAR]
    other = [(op, values | (dict(text=b"x" * n, details=b"d") if op == 1 else {})) for n, (op, values) in enumerate(calls)]
    for n in range(1, len(calls) + 1):
        yield from unlike(f"after {n} calls", held(after(*calls[:n])), held(after(*other[:n])))
    one = after(RAISE, until(1))
    order, answer = Step(call(8), 16 + WIDTH), bytearray(16) + alarm_record(one.alarms("active")[0])
    outcome = Outcome(0, len(answer), answer, one.register)
    for place, start in (("register", WIDTH * one.chain("active")[0]), ("answer", 16)):
        for changes in ({LAYOUT["alarm"]["end"]["at"] + 7: b"\2"}, {LAYOUT["alarm"]["end"]["present"]: bytes(9)}):
            changed = bytearray(getattr(outcome, place))
            for byte, data in changes.items():
                put(changed, start + byte, data)
            found = law.differ(order, outcome, outcome._replace(**{place: changed}))
            yield from unlike(place, found, f"twins: {place}s differ outside text and details")
    for data in (call(13, end=2), call(13, time=-1), call(14)):
        yield from unlike(f"{data.hex()} beside another", law.are_twins(Step(call(13), 1552), Step(data, 1552)), False)


def masked(_root):
    """An end that is masked as texts are would be noticed."""
    if not told(twins, lambda: replaced(law, "MASKED", law.MASKED | {"end": None})):
        yield "is not noticed"


# ---- wrong ways

FROM_OPENING = {"suppressions": suppressions, "behind": behind, "lifts": lifts, "faults": faults, "events": events, "untouched": untouched}
ON_GIVEN = {"sameness": sameness, "sound": sound}


def told(check, wrong):
    """A way that leaves a register that is not sound is told too."""
    try:
        with wrong():
            return bool(list(check(None)))
    except ValueError:
        return True


def ways(_root):
    """The smallest inputs tell each wrong way from the right one; what shows only on given registers is not told by lists."""
    lists = wrong_ends.WRONG | wrong_lifts.WRONG
    for name, wrong in (lists | wrong_lifts.WRONG_ON_GIVEN).items():
        by_lists = any(told(check, wrong) for check in FROM_OPENING.values())
        if by_lists != (name in lists):
            yield f"{name}: told by lists from a fresh register: {by_lists}"
        if name not in lists and not any(told(check, wrong) for check in ON_GIVEN.values()):
            yield f"{name} is not told"


CHECKS = {
    "ends: suppressed until a time": suppressions,
    "ends: what comes behind": behind,
    "ends: lifts": lifts,
    "ends: bytes": in_bytes,
    "ends: faults of calls": faults,
    "ends: events and gates": events,
    "ends: fields that a lift leaves": untouched,
    "ends: a lift and the newest entry": sameness,
    "ends: which are sound": sound,
    "ends: twins": twins,
    "ends: a mask that is too wide": masked,
    "ends: wrong ways": ways,
}
