"""Lists with calls of operations 13 and 14 (M-105 of document 02) that are the same on every run."""
import functools
import itertools

import always
from always import holding
from calls import call
from generate import ample, opened
from orders import Step
from timed import EARLIEST, LATEST

B = dict(id=b"b", object=(6, b"b"))
CRITICAL, PROTECTED, ALLOWED = dict(severity=5), dict(cause=b"key-unavailable"), dict(critical_allowed=1)


def until(end, **values):
    """A suppression until a time, of the worked call's alarm at time 0."""
    return call(13, end=end, **values)


def lift(cutoff):
    return call(14, time=cutoff)


every_call = functools.partial(always.every_call, True)

# what may become of an alarm that is suppressed at 0 until 2
ACTS = [call(1), call(1, time=2), call(1, time=5, severity=5, text=b"x"), call(3), call(4), call(5), call(6), call(3, time=9), call(2),
        call(7, time=1), call(7, time=9), *(call(op, authorised=0) for op in (3, 4, 5, 6)), until(9, authorised=0),
        until(1), until(2), until(3), until(3, time=2), until(3, time=9), call(1, **B), until(1, id=b"x")]
# what an alarm may be before that; the last raise comes from a clock that goes back
FORMER = [[call(1)], [call(1), call(1)], [call(1), call(3)], [call(1), call(4)], [call(1), call(6)], [call(1, time=5)], [call(1), call(1, time=5)]]


def made(limits, calls):
    return [opened(limits), *(Step(data, ample(limits), 0xA5) for data in calls)]


def with_reports(orders):
    """The list with all alarms and all of history behind each call."""
    reports = [Step(call(op), ample(orders[0].limits), 0xA5) for op in (8, 9)]
    return orders[:1] + [order for each in orders[1:] for order in (each, *reports)]


def ends():
    return map(with_reports, ends_bare())


def ends_bare():
    """One alarm that is suppressed until a time, and what may come before and after; with lifts around the end."""
    for act in ACTS:
        for limits in ((2, 3, 2), (2, 3, 1)):
            yield made(limits, [call(1), until(2), act, lift(1), lift(2), lift(3), call(1)])
    for former, cutoff in itertools.product(FORMER, (0, 1, 2, 3)):
        yield made((2, 4, 2), [*former, until(2), lift(cutoff), call(11), call(12, n=9)])
    yield from several()
    yield from gates()
    yield from refusals()


def several():
    """Alarms whose ends come in another order, one without an end among them; room for fewer entries than are lifted."""
    alarms = [dict(id=name, object=(6, name)) for name in (b"a", b"b", b"c", b"d")]
    calls = [*(call(1, **alarm) for alarm in alarms), until(3), call(4, id=b"b"), until(1, id=b"c"), until(2, id=b"d")]
    for cutoffs, history in itertools.product(([0, 1, 2, 3], [3], [2, LATEST], [-1, 9]), (1, 2, 5)):
        yield made((4, history, 3), calls + [lift(cutoff) for cutoff in cutoffs])
    yield made((2, 3, 2), [call(1), until(1), call(2), lift(1), call(1), until(1), call(7, time=1), lift(1), call(1), lift(1)])
    yield made((2, 3, 2), [call(1), call(1), until(1), lift(1), call(1), lift(1)])


def gates():
    """The critical gate, authorisation and a full audit chain, before and behind an end."""
    for values in (CRITICAL, PROTECTED, CRITICAL | PROTECTED):
        for allowed in ({}, ALLOWED):
            yield made((2, 3, 2), [call(1, **values), until(1, **allowed), until(2, authorised=0, **allowed), lift(2), call(12, n=9)])
    full = [call(1), until(1), until(2), call(6), call(5), until(2, authorised=0), call(11), lift(0), lift(1), call(12, n=1), until(3), call(5)]
    yield made((2, 3, 1), full)
    yield made((2, 3, 1), [call(1, time=2), until(1), lift(1), call(12, n=1), until(1, time=-1), call(1, time=7), lift(1)])


def refusals():
    """34 and what comes before it, with an alarm that could be suppressed and without."""
    times = [(0, 0), (0, -1), (-1, 0), (-1, -1), (-1, -2), (1, EARLIEST), (EARLIEST, EARLIEST), (EARLIEST, EARLIEST + 1), (EARLIEST, LATEST),
             (LATEST, LATEST), (LATEST, EARLIEST), (LATEST - 1, LATEST), (0, 1), (255, 256), (256, 255)]
    calls = [until(end, time=time) for time, end in times]
    same = until(0)
    calls += [same + b"\0", until(1) + b"\0", same[:-1], same[:17], until(0, denial=b"\xff"), until(0, id=b"i" * 65), until(0, authorised=2),
              until(0, critical_allowed=2), until(1, authorised=2), b"\x0d", b"\x0e", b"\x0f", lift(0) + b"\0", lift(0)[:-1]]
    for start in ([], [call(1)]):
        orders = made((2, 3, 7), start + calls)
        yield orders + [Step(data, 1551, 0xA5) for data in (until(0), until(1), until(1) + b"\0", lift(0), lift(9))]


# ---- registers that no list reaches

def held_ends():
    """An alarm and an entry that hold ends of all kinds, also in states that may have none: what each operation makes of them."""
    acts = [call(1), call(3), call(4), call(6), until(3), call(2), call(7, time=LATEST), lift(EARLIEST), lift(0), lift(LATEST)]
    for end, act in itertools.product((EARLIEST, -1, 0, 1, LATEST), acts):
        yield given(dict(state=3, end=end), dict(state=3, end=-1 - end), [call(8), act, call(8), call(9), lift(LATEST), call(9)])
    for state, end in itertools.product(range(6), (None, 0, 1)):
        yield given(dict(state=state, end=end), {}, [call(10), lift(1), call(9)])
        yield given({}, dict(state=state, end=end), [call(10), lift(1), call(9)])
    yield given(dict(state=3, end=1), dict(state=1), [lift(1), call(9)])
    yield given(dict(state=3, end=1), dict(state=1, end=None, severity=4), [lift(1), call(9)])
    yield doubled()


def given(alarm, entry, calls):
    return [holding(alarm, entry), *(Step(data, ample((2, 3, 1)), 0xA5) for data in calls)]


def doubled():
    """Two active alarms with equal fields and two ends: one entry for both."""
    start = always.doubled(dict(state=3, end=1), dict(state=3, end=2, raises=7))
    return [start, *(Step(data, ample((2, 3, 1)), 0xA5) for data in (lift(2), call(9)))]


# ---- all short lists

ALPHABET = [until(1), until(2), until(2, time=1), until(3, id=b"b"), lift(1), lift(2), call(1, time=5), call(1, **B), call(3), call(4), call(6),
            call(2), call(7, time=1), call(12, n=1)]


def short_lists():
    """Every list of three calls of an alphabet behind two raises, with the reports after it, on registers of small limits."""
    reports = [Step(data, ample((2, 3, 2)), 0x5A) for data in (call(8), call(9), call(11), call(12, n=9))]
    for limits in ((2, 1, 1), (2, 3, 2)):
        for calls in itertools.product(ALPHABET, repeat=3):
            yield [opened(limits), *(Step(data, 1552, 0xA5) for data in (call(1), call(1, **B), *calls)), *reports]
