"""Lists of calls that are the same on every run."""
import itertools

import imports  # noqa: F401  (finds the texts of tests/)
import long_texts
import model
from calls import call
from generate import ample, odd_calls, opened
from orders import Given, Open, Step
from reading import OBJECTS
from records import MOST_RAISES, WIDTH, alarm_of, alarm_record, put_number, unlinked
from register import Register
from soundness import sound_chains

ALPHABET = [call(1), call(1, severity=5, text=b"x"), call(1, id=b"b", object=(6, b"b"), time=1), call(2, time=-1), call(2, object=(6, b"b")),
            call(3), call(4, id=b"b"), call(5), call(6), call(6, critical_allowed=1), call(5, authorised=0), call(7, time=1), call(12, n=1)]


def short_lists():
    """Every list of three calls of an alphabet, with the reports after it, on registers of the smallest limits."""
    reports = [Step(data, ample((2, 2, 1)), 0x5A) for data in (call(8), call(9), call(10), call(11), call(12, n=9))]
    for limits_ in ((1, 1, 1), (2, 2, 1)):
        for calls in itertools.product(ALPHABET, repeat=3):
            yield [opened(limits_), *(Step(data, 1552, 0xA5) for data in calls), *reports]


def headlines():
    """The summary of no alarm; and of every two alarms of four severities, each left as raised, acknowledged or suppressed, the first by plain
    calls and the second by policy calls, once more when both are raised again as critical."""
    yield [opened((2, 4, 1)), Step(call(11), 1552, 0xA5)]
    for severities, ops in itertools.product(itertools.product((0, 3, 4, 5), repeat=2), itertools.product((None, 3, 4), (None, 5, 6))):
        alarms = [dict(id=name, object=(6, name), severity=severity, critical_allowed=1) for name, severity in zip((b"a", b"b"), severities)]
        calls = [*(call(1, **alarm) for alarm in alarms), *(call(op, **alarm) for op, alarm in zip(ops, alarms) if op), call(11)]
        calls += [*(call(1, **alarm | dict(severity=5)) for alarm in alarms), call(11)]
        yield [opened((2, 4, 1)), *(Step(data, 1552, 0xA5) for data in calls)]


def holding(alarm, entry):
    """A register with one active alarm, of the worked call, and its entry in history; some fields of both are changed."""
    data = bytearray(WIDTH * 7)
    model.open(data, 2, 3, 1)
    model.step(data, call(1), bytearray(1552))
    for (index,), fields in zip(sound_chains(data), (alarm, entry)):
        data[WIDTH * index + 4:WIDTH * (index + 1)] = alarm_record(alarm_of(unlinked(data, index)) | fields)[4:]
    return Given(bytes(data))


def doubled(*fields):
    """A register with two active alarms of equal fields, but for those that are given for each, and no other record."""
    data = bytearray(holding({}, {}).register)
    alarm = alarm_of(unlinked(data, 1))
    for index, changed in zip((1, 2), fields):
        data[WIDTH * index + 4:WIDTH * (index + 1)] = alarm_record(alarm | changed)[4:]
    Register(data, [[1, 2], [], [], [3, 4, 5, 6]]).link()
    return Given(bytes(data))


def held_raises():
    """An alarm that holds no or one raise, or almost or just the most, is left as raised, acknowledged or suppressed; it is raised twice,
    acknowledged, cleared or expired, and raised anew, with lists of alarms between."""
    for raises, op, end in itertools.product((0, 1, MOST_RAISES - 1, MOST_RAISES), (None, 3, 4), (call(2), call(7, time=1))):
        calls = [*([call(op)] if op else []), call(1), call(1), call(5), call(8), end, call(1), call(9)]
        yield [holding(dict(raises=raises), dict(raises=MOST_RAISES - raises)), *(Step(data, ample((2, 3, 1)), 0xA5) for data in calls)]


def texts():
    """Raises with texts at and beyond their limits, other long strings; and a text that is too long where the raise has or meets something else."""
    long, other = dict(text=long_texts.TOO_LONG), dict(id=b"b", object=(6, b"b"))
    sent = [*long_texts.at_limits(), *long_texts.told_apart(), *long_texts.not_utf8()]
    for limits_, calls in [
        ((2, 3, 1), [call(1, text=text) for text in sent]),
        ((2, 3, 1), [*long_texts.other_faults(), *long_texts.other_fields()]),
        ((1, 3, 1), [call(1, **long), call(1), call(1, **long), call(1, **other | long), call(8)]),
        ((2, 3, 1), [call(1), call(1, **other | long | dict(id=b"a")), call(1, **other | long), call(9)]),
    ]:
        yield [opened(limits_), *(Step(data, ample(limits_), 0xA5) for data in calls), Step(call(1, **long), 1551, 0xA5)]


def stored_texts():
    """An alarm with a text of more than 120 code points, and an entry with another one: what each operation makes of them, with lists of alarms."""
    held = [b"x" * 121, b"x" * 256, "é".encode() * 128, long_texts.text(121, 256)]
    acts = [*map(call, (3, 4, 5, 6, 13, 2)), call(7, time=1), call(1, text=b"y"), call(1, text=b"y" * 120), call(1, text=long_texts.TOO_LONG)]
    for text, act in itertools.product(held, acts):
        calls = [call(8), act, call(14, time=1), call(8), call(9)]
        yield [holding(dict(text=text), dict(text=b"y" * 121)), *(Step(data, ample((2, 3, 1)), 0xA5) for data in calls)]


def every_call(timed=False):
    """The calls of tests/calls one after the other on a register that holds a few alarms, each kind of object among them: those of operations
    13 and 14 or all others."""
    objects = [(kind, *(b"a", b"b", 1)[:len(parts)]) for kind, parts in OBJECTS.items()]
    room_ = ample((9, 5, 2))
    start = [opened((9, 5, 2)), *(Step(call(1, id=b"%d" % i, object=o), room_) for i, o in enumerate(objects))]
    found = odd_calls(timed)
    for at in range(0, len(found), 100):
        yield start + [Step(data, room_, 0xC3) for data in found[at:at + 100]]


def largest():
    """A register of the largest limit whose free chain begins at its end: indices that two bytes do not hold."""
    most = 65535
    count = most + 2
    data = bytearray(WIDTH * (1 + count))
    for name, value in (("A", most), ("H", 1), ("E", 1)):
        put_number(data, name, value)
    Register(data, [[], [], [], list(range(count, 0, -1))]).link()
    calls = [call(1), call(1, **{"id": b"b", "object": (6, b"b")}), call(5), call(2), call(8), call(9)]
    return [Open((most, 1, 1), len(data), 0x11), Given(bytes(data)), *(Step(sent, 16 + 4 * WIDTH) for sent in calls)]
