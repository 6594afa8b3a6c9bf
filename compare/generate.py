"""Lists of calls from a seed: every operation, few keys and ids, small limits, times at both ends, boundary lengths, damaged
calls and registers, short answers. Only timed lists have calls of operations 13 and 14 (M-105): the Rust is given the others."""
import functools

import imports  # noqa: F401  (finds the calls of tests/)
import cases
import model
import reach
from calls import call
from timed import LIFT, SUPPRESS_UNTIL, is_timed
from headline import SUPPRESSED
from long_texts import MOST, MOST_BYTES, letters, text
from orders import Counters, Given, Open, Step
from reading import NAMES, Call, Refused
from records import CHAINS, MOST_RAISES, WIDTH, alarm_record, event_record, put_link, put_number

TIMES = [0, 1, 2, 3, 100, -1, -2, 255, 256, 2**63 - 1, 2**63 - 2, -2**63, 1 - 2**63]
IDS = [b"a", b"b", b"c", b"d", b"", "ü".encode(), b"i" * 64]
TYPES = [b"t", b"t", b"t", b"", b"u" * 64]
CAUSES = [b"lease-lost", b"lease-lost", b"sbi-overload", b"key-unavailable", b"other:a.b", b"other: a.b ", b"other:" + b"x" * 88 + b".y"]
OBJECTS_SENT = [(6, b"a"), (6, b"b"), (6, b"c"), (1, b"a:b", b"c"), (1, b"a", b"b:c"), (2, b"a", b"b"), (3, b"", b"p" * 64), (4, b"a", None),
                (4, b"a", b""), (4, b"a", b"s"), (5, b"a"), (7, b"a"), (8, b"a", b"b", 0), (8, b"a", b"b", 65535)]
SCOPES = [(0, b"a"), (0, b""), (1, b"t"), (1, b"s" * 64), (2,)]
OPTIONS = [None, None, None, b"x", b"", b"y" * 64]
REGIONS = [None, None, None, b"r", "Grün".encode(), b"r" * 128]
TEXTS = [b"", b"x", "café €".encode(), b"t" * MOST, text(MOST, MOST_BYTES)]
REASONS = [b"", b"x", "café €".encode(), b"t" * 256, b"t" * 255]
DETAILS = [None, None, b"", b"{}", b"\xff\0", b"d" * 512]
OPERATIONS = [1] * 30 + [2] * 10 + [3, 4] * 4 + [5, 6] * 9 + [7] * 6 + [8, 9, 10, 11] * 2 + [12] * 5


@functools.cache
def odd_calls(*timed):
    """The calls of tests/calls, good and damaged: those of operations 13 and 14, all others, or both."""
    return [data for data in cases.calls() if is_timed(data) in timed]


# ---- texts: at most 120 code points in a raise (M-104), and at most 256 bytes there and in a record

def text_of(rng, points, size):
    """A text of so many code points in so many bytes, or in as few or as many as they can have."""
    found = letters(points, max(points, min(size, 4 * points)))
    rng.shuffle(found)
    return b"".join(found)


def text_within(rng, most):
    """A text of at most so many code points, and at most 256 bytes; some are as long as they may be."""
    points = rng.choice([0, 64, MOST - 1, most, rng.randint(0, most)])
    return text_of(rng, points, rng.choice([0, MOST_BYTES, rng.randint(0, MOST_BYTES)]))


def text_beside_limits(rng):
    """A text at a limit or beside it; some are not UTF-8."""
    points = rng.choice([MOST - 1, MOST, MOST + 1, MOST + 1, rng.randint(64, MOST_BYTES)])
    found = text_of(rng, points, rng.choice([0, 2 * points, MOST_BYTES - 1, MOST_BYTES, MOST_BYTES + 1]))
    return found if rng.random() < 0.9 else found[:-1] + rng.choice([b"\xc3", b"\xff"])


def text_sent(rng):
    """A raise's text: most are within both limits."""
    chance = rng.random()
    return text_beside_limits(rng) if chance < 0.1 else text_within(rng, MOST) if chance < 0.2 else rng.choice(TEXTS)


# ---- calls

def values(rng, objects):
    """Values of all fields."""
    some = rng.choice
    return dict(
        time=some(TIMES), id=some(IDS[:5] if rng.random() < 0.9 else IDS), type=some(TYPES), severity=rng.randrange(6),
        cause=some(CAUSES) if rng.random() < 0.8 else some(NAMES), object=some(objects), tenant=some(OPTIONS), slice=some(OPTIONS[2:]),
        region=some(REGIONS), text=text_sent(rng), details=some(DETAILS), authorised=rng.random() < 0.8, principal=some(IDS),
        reason=some(REASONS), scope=some(SCOPES), correlation=some(OPTIONS), critical_allowed=rng.random() < 0.4,
        denial=some(REASONS[:3]), severity_or_all=some([255, 255, *range(6)]), n=some([0, 1, 1, 2, 3, 255, 256, 65535]))


def plain_values(rng, objects):
    """Values of which only few matter: lists of these meet the same alarms again and again."""
    found = values(rng, objects)
    return found | dict(id=rng.choice(IDS[:3]), type=b"t", cause=rng.choice(CAUSES[:4]), tenant=None, slice=None, region=None)


def named_values(rng, objects):
    """Values of which the object alone makes key and id: no raise would store an id that is active, and many update."""
    found = plain_values(rng, objects)
    return found | dict(id=b"%d" % objects.index(found["object"]), cause=b"lease-lost")


def damaged_call(rng, data):
    """A call with bytes changed, put in or left out, cut, or with bytes left over."""
    way = rng.randrange(4)
    at = rng.randrange(len(data))
    if way == 0:
        return data[:at]
    if way == 1:
        return data + rng.randbytes(rng.randint(1, 3))
    return data[:at] + (bytes([data[at] ^ 1 << rng.randrange(8)]) if way == 2 else rng.randbytes(rng.randrange(3))) + data[at + 1:]


def ample(limits_):
    """Room for every answer."""
    return 16 + WIDTH * max(limits_)


def room(rng, most):
    if rng.random() < 0.9:
        return most
    edge = 16 + WIDTH * rng.randrange(5)
    return rng.choice([0, 15, 16, 34, 1551, 1552, 1553, edge, edge - 1, edge + 1, rng.randrange(4000)])


def timed_call(rng, fields):
    """A suppression until a time that is beside the call's, or a lift."""
    if rng.random() < 0.4:
        return call(LIFT, time=rng.choice([0, 1, 2, 3, 4, *TIMES]))
    time = fields["time"]
    end = rng.choice([time - 1, time, time + 1, time + 1, time + 2, time + 3, time + 100, rng.choice(TIMES)])
    return call(SUPPRESS_UNTIL, **fields | dict(end=end, authorised=rng.random() < 0.9))


def sent(rng, choose, timed):
    """A call by chance, with values that are chosen so."""
    chance = rng.random()
    if chance < 0.03:
        return rng.choice(odd_calls(False, timed))
    data = timed_call(rng, choose()) if timed and rng.random() < 0.3 else call(rng.choice(OPERATIONS), **choose())
    found = damaged_call(rng, data) if chance < 0.07 else data
    return found if timed or not is_timed(found) else data


def steps(rng, count, most, ways=(plain_values, plain_values, values), timed=False):
    """Steps by chance, their values made in one of some ways, most of them with so much room for the answer."""
    objects = rng.sample(OBJECTS_SENT, rng.choice([2, 3, 5, len(OBJECTS_SENT)]))
    choose = functools.partial(rng.choice(ways), rng, objects)
    for _ in range(count):
        data = sent(rng, choose, timed)
        yield Step(data, room(rng, most), rng.randrange(256))


def limits(rng):
    if rng.random() < 0.15:
        return rng.randint(4, 16), rng.randint(4, 24), rng.randint(2, 8)
    return rng.randint(1, 4), rng.randint(1, 5), rng.randint(1, 3)


def opened(limits_, former=0xEE):
    return Open(limits_, WIDTH * (1 + sum(limits_)), former)


def fresh(rng, count, timed=False):
    """A list from opening; at times with counters that soon wrap."""
    given = limits(rng)
    orders = [opened(given, rng.randrange(256))]
    if rng.random() < 0.1:
        orders.append(Counters(2**64 - rng.randint(1, 3), 2**64 - rng.randint(1, 3)))
    return orders + list(steps(rng, count, ample(given), timed=timed))


def refused_opening(rng):
    """Limits and slices that opening refuses."""
    given = limits(rng)
    bad = [rng.choice([0, 1, 65535, 65536, 2**31, 2**32 - 1]) for _ in range(3)]
    size = WIDTH * (1 + sum(given)) + rng.choice([-WIDTH, -1, 1, WIDTH])
    return rng.choice([Open(tuple(bad), 2 * WIDTH, 7), Open(given, size, 7), Open(given, 0, 7)])


def forged(rng, a, h, e):
    """A sound register that no list of calls need reach: equal ids and keys, times, states, raises and ends of all kinds, texts of up to 256
    code points, any order of records."""
    order = list(range(1, 1 + a + h + e))
    rng.shuffle(order)
    data = bytearray(WIDTH * (1 + len(order)))
    for name, value in zip(("A", "H", "E", "successes", "failures"), (a, h, e, rng.choice([0, 2**64 - 1]), rng.choice([0, 2**64 - 1]))):
        put_number(data, name, value)
    lengths = [rng.randint(0, limit) for limit in (a, h, e)]
    lengths.append(len(order) - sum(lengths))
    objects = rng.sample(OBJECTS_SENT, 2)
    for chain, length in zip(CHAINS, lengths):
        indices = [order.pop() for _ in range(length)]
        put_number(data, f"{chain}_head", indices[0] if indices else 0)
        put_number(data, f"{chain}_length", length)
        for index, after in zip(indices, indices[1:] + [0]):
            if chain != "free":
                data[WIDTH * index:WIDTH * (index + 1)] = forged_record(rng, chain, plain_values(rng, objects))
            put_link(data, index, after)
    return data


def forged_record(rng, chain, fields):
    fields = fields | {"cause": rng.choice([b"lease-lost", b"key-unavailable", b"other:a.b"])}
    times = {name: rng.choice(TIMES) for name in ("raised_at", "updated_at", "occurred_at")}
    if chain == "audit":
        return event_record(fields | times | {"action": rng.randrange(2), "outcome": rng.randrange(2)})
    key = model.key_of(fields) if rng.random() < 0.8 else bytes(16)
    state = rng.randrange(4 if chain == "active" else 6)
    raises = rng.choice([0, 1, MOST_RAISES - 1, MOST_RAISES, rng.randrange(MOST_RAISES)])
    end = rng.choice([None, *TIMES]) if state == SUPPRESSED else None
    alarm = {"key": key, "state": state, "cleared_at": rng.choice([None, *TIMES]), "raises": raises, "end": end}
    return alarm_record(fields | times | alarm | {"text": text_within(rng, rng.choice([MOST, MOST_BYTES]))})


def damaged(rng, data):
    """A register with a few bytes or numbers changed; some remain sound."""
    data = bytearray(data)
    for _ in range(rng.choice([1, 1, 1, 2])):
        record = WIDTH * rng.randrange(len(data) // WIDTH)
        way = rng.randrange(4)
        if way == 0:
            data[record:record + 4] = rng.randrange(len(data) // WIDTH + 1).to_bytes(4, "big")
        elif way == 1:
            at = 4 * rng.randrange(11)
            data[at:at + 4] = rng.randrange(6).to_bytes(4, "big")
        elif way == 2:
            data[rng.randrange(len(data))] ^= 1 << rng.randrange(8)
        else:
            data[record + rng.randrange(64)] = rng.choice([0, 1, 2, 6, 255])
    return bytes(data[:rng.randrange(len(data))] if rng.random() < 0.03 else data)


def from_registers(rng, count):
    """Calls on forged and on damaged registers."""
    orders = []
    for _ in range(-(-count // 8)):
        given = limits(rng)
        register = forged(rng, *given)
        if rng.random() < 0.5:
            orders += [Given(bytes(register)), *steps(rng, 8, ample(given), timed=True)]
        else:
            for _ in range(4):
                orders += [Given(damaged(rng, register)), *steps(rng, 2, ample(given), timed=True)]
    return orders


def twin(rng, orders):
    """The list with other texts, within both limits, and other details in its good raises."""
    for order in orders:
        if isinstance(order, Step) and order.call[:1] == b"\1":
            try:
                _, found = Call(order.call).read()
            except Refused:
                yield order
                continue
            found |= {"text": text_within(rng, MOST), "details": rng.choice([None, rng.randbytes(rng.randrange(513))])}
            order = order._replace(call=call(1, **found))
        yield order


# ---- a list and the same with one severity entered wrong

def refused_policy(rng, order):
    """A policy call with a byte left over, or with too short an answer slice; few are left as they are."""
    if not reach.is_policy(order) or rng.random() < 0.06:
        return order
    return rng.choice([order._replace(call=order.call + b"\0"), order._replace(room=1551)])


def tight_report(rng, severities):
    """A report that one severity can change, with room for few records."""
    data = rng.choice([*(call(8, severity_or_all=severity) for severity in severities), call(9), call(10)])
    return Step(data, 16 + WIDTH * rng.choice([0, 0, 1, 2, 3]), rng.randrange(256))


def one_severity(rng, count):
    """A list from opening or on a forged register, and the same with another severity in an early raise; no second one without a raise.

    At times the alarm is raised just so directly before and behind: history then has one entry of these in one list, and more in the other. In
    lists with operations 13 and 14 an alarm of its own is suppressed until the latest time, which may have come directly behind the raise.
    """
    given = rng.randint(1, 4), rng.randint(1, 12), rng.randint(1, 3)
    start = opened(given) if rng.random() < 0.75 else Given(bytes(forged(rng, *given)))
    timed = isinstance(start, Given) or rng.random() < 0.3
    until = [Step(call(op, id=b"u", type=b"u", end=max(TIMES)), 1552) for op in (1, SUPPRESS_UNTIL)] if timed else []
    orders = [start, *until, *steps(rng, count, ample(given), (named_values, named_values, plain_values), timed)]
    places = [place for place in reach.raises(orders) if place > len(until)]
    if not places:
        return orders, None
    place = rng.choice(places[:4])
    raised = orders[place]
    severity = raised.call[reach.severity_at(raised.call)]
    other = (severity + rng.randint(1, 5)) % 6
    before = orders[:place] + [raised] * rng.randrange(2)
    lifts = [Step(call(LIFT, time=max(TIMES)), 1552)] * (timed and rng.randrange(2))
    behind = lifts + [raised] * rng.randrange(2) + [refused_policy(rng, order) for order in orders[place + 1:]]
    for at in range(0, len(behind), 4):
        behind.insert(at, tight_report(rng, (severity, other)))
    orders = [*before, raised, *behind]
    return orders, reach.mistaken(orders, len(before), other)
