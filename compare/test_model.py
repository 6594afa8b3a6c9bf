#!/usr/bin/env python3
"""The model on document 01's worked cases, and on the smallest inputs that tell its readings and document 02's apart."""
import sys

import imports  # noqa: F401  (finds the list of checks)
import model
from calls import call, pieces
from checklist import run
from records import WIDTH, alarm_of, alarm_record, event_of, event_record, number, put_number, unlinked
from register import Register
from soundness import sound_chains

R = call(1)
RB = dict(id=b"b", object=(6, b"b"))
FILL = 0xA5


def need(fact, what):
    if not fact:
        raise ValueError(what)


class Station:
    """A register that is stepped, with its former answers."""

    def __init__(self, a=2, h=3, e=1):
        self.register = bytearray(b"\xff" * WIDTH * (1 + a + h + e))
        need(model.open(self.register, a, h, e) == 0, "opening is refused")
        self.code = self.count = self.n = self.body = None

    def step(self, data, room=20000):
        """The number; what the answer holds stays in code, count, n and body."""
        before, answer = bytes(self.register), bytearray([FILL]) * room
        number_, length = model.step(self.register, data, answer)
        need(answer[length:].count(FILL) == room - length, "bytes past the answer")
        need(number_ == 0 or (length == 0 and self.register == before), "a refusal changes something")
        need(sound_chains(self.register) is not None or number_ == 22, "no sound register")
        if number_ == 0:
            self.code, self.count = answer[0], int.from_bytes(answer[4:8], "big")
            self.n, self.body = int.from_bytes(answer[8:16], "big"), bytes(answer[16:length])
        return number_

    def __call__(self, op, **values):
        """Steps a call; the answer's code, or a refusal's number."""
        return self.step(call(op, **values)) or self.code

    def codes(self, *calls):
        return [self(op, **values) for op, values in calls]

    def chain(self, name):
        return sound_chains(self.register)[["active", "history", "audit", "free"].index(name)]

    def alarms(self, name):
        return [alarm_of(unlinked(self.register, index)) for index in self.chain(name)]

    def history(self, field):
        return [alarm[field] for alarm in self.alarms("history")]

    def events(self):
        return [event_of(unlinked(self.register, index)) for index in self.chain("audit")]

    def counters(self):
        return [number(self.register, name) for name in ("successes", "failures")]


def after(*calls, **limits):
    station = Station(**limits)
    for op, values in calls:
        need(station(op, **values) <= 11, "a call is refused")
    return station


def unlike(what, found, wanted):
    if found != wanted:
        yield f"{what}: {found}, not {wanted}"


# ---- document 01, "A register with A=2, H=3, E=1"

def keys(_root):
    fields = dict(type=b"t", cause=b"lease-lost", object=(6, b"a"), tenant=None, slice=None, region=None)
    yield from unlike("bytes hashed", len(model.hashed(fields)), 37)
    yield from unlike("with tenant \"\"", len(model.hashed(fields | {"tenant": b""})), 41)
    objects = [(1, b"a:b", b"c"), (1, b"a", b"b:c")]
    yield from unlike("two objects of kind 1", len({model.hashed(fields | {"object": o}) for o in objects}), 2)
    yield from unlike("key", model.key_of(fields).hex(), "a5f43ee9f466fcfff18a4c4b81602c03")
    queue = fields | {"object": (8, b"", b"", 0)}
    yield from unlike("key of a queue", model.key_of(queue).hex(), "b790757ca1f578908a2a9cf8390d9413")


def causes(_root):
    station = after((1, dict(cause=b"other: a.b ")))
    yield from unlike("stored", station.history("cause"), [b"other:a.b"])
    for cause in (b"other:a", b" lease-lost", b"", b"other:a. b"):
        yield from unlike(repr(cause), Station()(1, cause=cause), 28)


def raises(_root):
    station = after((1, {}), (1, {}), (1, {}))
    yield from unlike("raised three times", station.history("state"), [0, 1])
    station.codes((2, {}), (1, {}))
    yield from unlike("cleared, raised anew", station.history("state"), [1, 4, 0])
    station = after((1, {}), (1, RB))
    third = station(1, id=b"c", object=(6, b"c"))
    yield from unlike("a third key", (third, station.n, len(station.body)), (5, 2, 32))
    yield from unlike("either active key", station.codes((1, {}), (1, RB)), [2, 2])


def times(_root):
    station = after((1, dict(time=100)))
    yield from unlike("cutoff 100", (station(7, time=100), station.n), (11, 0))
    yield from unlike("cutoff 101", (station(7, time=101), station.n), (11, 1))
    yield from unlike("cleared by a clock at 90", after((1, dict(time=100)), (2, dict(time=90))).history("cleared_at"), [None, 100])
    yield from unlike("updated_at goes back", after((1, dict(time=1)), (1, dict(time=3)), (1, dict(time=2))).alarms("active")[0]["updated_at"], 2)
    yield from unlike("signed", after((1, dict(time=-1)), (7, dict(time=0))).n, 1)
    yield from unlike("both ends", after((1, dict(time=-2**63)), (1, dict(time=2**63 - 1))).history("updated_at"), [-2**63, 2**63 - 1])


def audit(_root):
    station = after((1, {}), (5, {}))
    yield from unlike("audit full", station.codes((5, {}), (5, dict(authorised=0))), [9, 8])
    yield from unlike("counters", station.counters(), [1, 2])
    yield from unlike("unknown id", Station().codes((3, dict(authorised=0)), (5, dict(authorised=0))), [8, 10])
    station = after((1, dict(severity=5)), (6, dict(authorised=0)))
    yield from unlike("critical before authorised", station.body[4:], model.NEEDS_OVERRIDE)
    yield from unlike("plain suppress of it", station(4), 6)
    yield from unlike("acknowledge with policy of it", after((1, dict(severity=5)))(5), 7)
    yield from unlike("event", {name: after((1, dict(time=1, tenant=b"x")), (5, {})).events()[0][name] for name in ("tenant", "occurred_at")},
                      {"tenant": None, "occurred_at": 1})
    put_number(station.register, "failures", 2**64 - 1)
    station(5)
    yield from unlike("counters wrap", station.counters(), [1, 0])


# ---- chains and answers

def places(_root):
    """Which record each chain takes."""
    for limits, calls, wanted in [
        ((1, 1, 1), [(1, {}), (2, {})], [[], [2], [], [1, 3]]),
        ((2, 3, 1), [(1, {}), (2, {})], [[], [2, 1], [], [3, 4, 5, 6]]),
        ((2, 3, 1), [(1, {}), (2, {}), (1, {})], [[3], [2, 1, 4], [], [5, 6]]),
        ((2, 3, 1), [(1, {}), (5, {})], [[1], [2, 4], [3], [5, 6]]),
        ((2, 3, 1), [(1, {}), (1, RB), (7, dict(time=1))], [[], [4, 1, 2], [], [3, 5, 6]]),
        ((2, 3, 2), [(1, {}), (5, {}), (5, {}), (12, dict(n=2))], [[1], [2, 4], [], [5, 3, 6, 7]]),
        ((1, 1, 1), [(1, {}), (1, dict(severity=4))], [[1], [2], [], [3]]),
        ((1, 1, 1), [(1, {}), (5, {})], [[1], [2], [3], []]),
        ((1, 1, 1), [(1, {}), (5, {}), (1, {}), (2, {}), (1, {})], [[1], [2], [3], []]),
    ]:
        station = after(*calls, **dict(zip("ahe", limits)))
        yield from unlike(f"{limits} {calls}", sound_chains(station.register), wanted)


def none_free(_root):
    """A take with no free record, which no call comes to, is an error of the model and no number."""
    station = after((1, {}), (5, {}), a=1, h=1, e=1)
    try:
        given = Register(bytearray(station.register), sound_chains(station.register)).take()
    except IndexError:
        return
    yield f"it gives {given}"


def histories(_root):
    """What is added to history and what is overwritten."""
    for calls, wanted in [
        ([(1, {}), (1, {}), (1, dict(severity=4))], [0, 1, 1]),
        ([(1, {}), (3, {}), (1, dict(text=b"x"))], [0, 2]),
        ([(1, {}), (3, {}), (5, {})], [0, 2]),
        ([(1, {}), (1, {}), (1, RB), (1, {})], [1, 0, 1]),
    ]:
        yield from unlike(str(calls), after(*calls).history("state"), wanted)
    yield from unlike("the text of an overwritten entry", after((1, {}), (3, {}), (1, dict(text=b"x"))).history("text"), [b"", b"x"])
    yield from unlike("details that are absent again", after((1, dict(details=b"d")), (1, {})).alarms("active")[0]["details"], None)
    yield from unlike("severity after expiry", after((1, {}), (7, dict(time=1))).history("severity"), [3, 3])
    yield from unlike("severity after a clear", after((1, {}), (2, {})).history("severity"), [3, 0])


def answers(_root):
    station = after((1, {}), (2, dict(cause=b"other: a.b")))
    yield from unlike("code 4", (station.code, station.count, len(station.body)), (4, 0, 32 + 4 + 9))
    yield from unlike("cleared", (station(2), station.count, station.body), (3, 0, b"\0\0\0\1a"))
    yield from unlike("no alarm", (station(11), station.n, station.body), (11, 0, bytes([255, 0]) + bytes(16)))
    station = after((1, {}), (1, RB | dict(severity=4)), a=3)
    station(1, id=b"c", cause=b"sbi-overload")
    pairs = [(3, b"lease-lost"), (4, b"lease-lost"), (3, b"sbi-overload")]
    counted = b"".join(bytes([s, 0, 0, 0, 1, 0, 0, 0, len(c)]) + c for s, c in pairs)
    yield from unlike("counts", (station(10), station.count, station.body), (11, 3, counted))
    yield from unlike("summary", (station(11), station.n, station.body[:2]), (11, 3, bytes([4, 1])))
    yield from unlike("active list", (station(8, severity_or_all=4), station.count), (11, 1))
    yield from unlike("history of a tenant", (station(9, tenant=b"x"), station.count), (11, 0))
    station.step(R)
    yield from unlike("next is zero", station.body[:4], bytes(4))


# ---- M-103: suppressed alarms off the headline

RAISE, ACKNOWLEDGE, SUPPRESS, SUMMARY = (1, {}), (3, {}), (4, {}), (11, {})
CRITICAL, ALLOWED = (1, dict(severity=5)), dict(critical_allowed=1)
NONE = (255, 0)
# calls, with worst severity and readiness in the summary after them
HEADLINES = {
    "acknowledged": ([RAISE, ACKNOWLEDGE], (3, 0)),
    "acknowledged, and major": ([(1, dict(severity=4)), ACKNOWLEDGE], (4, 1)),
    "acknowledged by policy, and critical": ([CRITICAL, (5, {})], (5, 2)),
    "updated": ([CRITICAL, CRITICAL], (5, 2)),
    "suppressed, and major": ([(1, dict(severity=4)), SUPPRESS], NONE),
    "suppressed, and critical": ([CRITICAL, SUPPRESS], NONE),
    "suppressed, and of severity 0": ([(1, dict(severity=0)), SUPPRESS], NONE),
    "suppressed by policy": ([RAISE, (6, {})], NONE),
    "suppressed by policy, and critical": ([CRITICAL, (6, ALLOWED)], NONE),
    "both suppressed": ([CRITICAL, (1, RB), SUPPRESS, (4, RB)], NONE),
    "the first of two suppressed": ([RAISE, (1, RB), SUPPRESS], (3, 0)),
    "the worse of two suppressed": ([CRITICAL, (1, RB | dict(severity=4)), SUPPRESS], (4, 1)),
    "the lesser of two suppressed": ([CRITICAL, (1, RB | dict(severity=4)), (4, RB)], (5, 2)),
    "the other of severity 0": ([RAISE, SUPPRESS, (1, RB | dict(severity=0))], (0, 0)),
    "the other acknowledged": ([CRITICAL, SUPPRESS, (1, RB), (3, RB)], (3, 0)),
    "suppressed and raised again": ([RAISE, SUPPRESS, CRITICAL], NONE),
    "raised again and acknowledged": ([RAISE, SUPPRESS, CRITICAL, ACKNOWLEDGE], (5, 2)),
    "suppressed and acknowledged": ([RAISE, SUPPRESS, ACKNOWLEDGE], (3, 0)),
    "acknowledged and suppressed": ([RAISE, ACKNOWLEDGE, SUPPRESS], NONE),
    "suppressed, cleared and raised anew": ([RAISE, SUPPRESS, (2, {}), RAISE], (3, 0)),
    "suppress not authorised": ([RAISE, (4, dict(authorised=0))], (3, 0)),
    "suppress by policy not allowed": ([CRITICAL, (6, {})], (5, 2)),
    "suppress by policy, audit full": ([RAISE, (5, {}), (6, {})], (3, 0)),
}


def headlines(_root):
    """Worst severity and readiness leave suppressed alarms aside, and no others."""
    for name, (calls, wanted) in HEADLINES.items():
        yield from unlike(name, tuple(after(*calls, SUMMARY).body[:2]), wanted)


def suppressed_counted(_root):
    """What still includes suppressed alarms: a summary's number and counters, counts, lists and history."""
    station = after(RAISE, (1, RB), (6, {}), (6, {}), SUMMARY)
    yield from unlike("number", station.n, 2)
    yield from unlike("counters", station.body[2:], bytes(7) + b"\1" + bytes(7) + b"\1")
    station(4, **RB)
    yield from unlike("all suppressed", (station(11), station.n, station.body[:2]), (11, 2, bytes(NONE)))
    yield from unlike("counts", (station(10), station.count, station.body), (11, 1, b"\3\0\0\0\2\0\0\0\x0alease-lost"))
    for severity, wanted in ((255, 2), (3, 2), (4, 0)):
        yield from unlike(f"active list {severity}", (station(8, severity_or_all=severity), station.count), (11, wanted))
    yield from unlike("states on the active chain", [alarm["state"] for alarm in station.alarms("active")], [3, 3])
    yield from unlike("history", (station(9), station.count, station.history("state")), (11, 3, [0, 3, 3]))


def unreached(_root):
    """Sound registers that no list of calls reaches."""
    station = after((1, dict(time=2)), (1, RB))
    first, second = station.chain("active")

    def forge(index, **fields):
        record = alarm_record(alarm_of(unlinked(station.register, index)) | fields)
        station.register[WIDTH * index + 4:WIDTH * (index + 1)] = record[4:]

    forge(second, id=b"a", cleared_at=7)
    station(3, time=5)
    yield from unlike("the first of two equal ids", [alarm["state"] for alarm in station.alarms("active")], [2, 0])
    station(1, **RB)
    yield from unlike("a cleared_at of an active alarm stays", station.alarms("active")[1]["cleared_at"], 7)
    forge(station.chain("history")[-1], key=bytes(16))
    station(1, **RB)
    keys_ = station.history("key")
    yield from unlike("an entry with another key is overwritten", (len(keys_), keys_[-1]), (3, station.alarms("active")[1]["key"]))
    forge(first, raised_at=9, updated_at=0)
    station(7, time=1)
    expired = [(alarm["updated_at"], alarm["cleared_at"]) for alarm in station.alarms("history") if alarm["raised_at"] == 9]
    yield from unlike("expired before it was raised", expired, [(1, 1)])


# ---- refusals

def opening(_root):
    for limits, size, wanted in [((0, 1, 1), 5, 20), ((1, 65536, 1), 5, 20), ((1, 1, 2**32 - 1), 0, 20), ((2, 3, 1), 7 * WIDTH - 1, 21),
                                 ((65535, 65535, 65535), 0, 21), ((2, 3, 1), 7 * WIDTH, 0)]:
        yield from unlike(f"open {limits} on {size}", model.open(bytearray(size), *limits), wanted)


def order(_root):
    """The first fault wins."""
    cut = bytes([1]) + b"".join(pieces(1, severity=9)[:4])
    for data, wanted in [(b"", 23), (b"\x0f\0", 23), (b"\x0d\0", 24), (b"\1", 24), (call(1, cause=b"z") + b"\0", 28), (b"\3" + bytes(8) + b"\0\0\0\1\xff\1\0", 27),
                         (cut, 25), (b"\3" + bytes(8) + b"\0\0\0\x41", 26), (call(1, cause=b"z")[:-2], 28),
                         (call(1, region=b"", text=b"\xff"), 29), (call(2, region=b""), 0), (call(1, details=b"\xff"), 0), (b"\x0a\0", 24),
                         (call(1, severity=255), 25), (call(5, denial=b"\xff"), 27), (call(5, critical_allowed=2), 25)]:
        yield from unlike(data.hex(), Station().step(data), wanted)


def rooms(_root):
    """30 comes after the call and before 31."""
    station = after((1, {}))
    taken = call(1, object=(6, b"b"))
    for data, room, wanted in [(b"\x0b\0", 1551, 24), (b"\x0b", 1551, 30), (b"\x0b", 1552, 0), (taken, 1551, 30), (taken, 1552, 31),
                               (call(8), 1551, 30), (call(8), 1552, 0), (call(12, n=65535), 15, 30), (call(12, n=65535), 16, 0),
                               (call(8, severity_or_all=4), 16, 0)]:
        yield from unlike(f"{data.hex()} with room for {room}", station.step(data, room), wanted)
    yield from unlike("at the limit there is no 31", after((1, {}), a=1)(1, object=(6, b"b")), 5)
    yield from unlike("no 31 where the key is active", after((1, {}), (1, RB))(1, id=b"b"), 2)


def unsound(_root):
    station = after((1, {}), (5, {}))
    for size in (0, 1, 59, WIDTH, 7 * WIDTH - 1):
        yield from unlike(f"{size} bytes", model.step(station.register[:size], b"", bytearray(2000)), (22, 0))
    for at in (0, 3, 17, 1535, WIDTH + 3, WIDTH + 21, 2 * WIDTH - 1, 5 * WIDTH + 4):
        damaged = bytearray(station.register)
        damaged[at] ^= 0x80
        yield from unlike(f"byte {at} damaged", model.step(damaged, b"", bytearray(2000)), (22, 0))


def records(_root):
    """A record's bytes are those of its values."""
    station = after((1, dict(object=(4, b"nf", None), tenant=b"", region="Grün".encode(), details=b"\xff" * 512)), (1, dict(id=b"", object=(8, b"n", b"i", 65535))),
                    (6, dict(principal=b"op", scope=(1, b"x"), correlation=b"")), (2, dict(object=(8, b"n", b"i", 65535), time=-5)))
    for index in station.chain("active") + station.chain("history"):
        record = unlinked(station.register, index)
        yield from unlike(f"record {index}", alarm_record(alarm_of(record)), record)
    for index in station.chain("audit"):
        record = unlinked(station.register, index)
        yield from unlike(f"record {index}", event_record(event_of(record)), record)


CHECKS = {
    "keys": keys,
    "causes": causes,
    "raises and clears": raises,
    "times": times,
    "policy and audit": audit,
    "records that chains take": places,
    "a take with no free record": none_free,
    "history": histories,
    "answers": answers,
    "headlines": headlines,
    "suppressed alarms where they count": suppressed_counted,
    "registers that no list reaches": unreached,
    "opening": opening,
    "order of a call's faults": order,
    "rooms for answers": rooms,
    "registers that are not sound": unsound,
    "records and their values": records,
}

if __name__ == "__main__":
    sys.exit(run("model", CHECKS))
