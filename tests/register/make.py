#!/usr/bin/env python3
"""Writes crates/register_damaged/stdin and stdout: registers with orders to damage and check them, and what the program is to print.

The verdicts are those of compare/soundness.py, written from documents 01 and 02.
"""
import itertools
import pathlib
import sys

ROOT = pathlib.Path(__file__).resolve().parents[2]
sys.path.insert(1, str(ROOT / "compare"))
from records import CHAINS, LAYOUT, MOST_RAISES, WIDTH, alarm_record, event_record, put, put_link, put_number
from soundness import sound_chains


def verdict(data):
    """The last index of the active, history and audit chains, 0 for none; None if the register is not sound."""
    chains = sound_chains(data)
    return None if chains is None else [indices[-1] if indices else 0 for indices in chains[:3]]


# ---- sound registers

ABSENT = dict.fromkeys(("tenant", "slice", "region", "details", "correlation"))


def made_alarm(key, severity, state, kind, strings, raises, queue=0, cleared=None, end=None, **texts):
    return alarm_record(ABSENT | texts | {
        "key": bytes([key]) * 16, "severity": severity, "state": state, "object": (kind, *strings, queue), "cleared_at": cleared,
        "raised_at": 0x0001020304050607, "updated_at": 1 - 2 ** 63, "raises": raises, "end": end})


def made_event(action, outcome, scope, string=None, **texts):
    return event_record(ABSENT | texts | {
        "action": action, "outcome": outcome, "scope": (scope, string), "occurred_at": 0x0001020304050607})


def register(limits, chains, records, successes=0, failures=0):
    data = bytearray(WIDTH)
    for name, value in [*zip("AHE", limits), ("successes", successes), ("failures", failures)]:
        put_number(data, name, value)
    for index in range(1, sum(limits) + 1):
        data += records.get(index, bytes(WIDTH))
    for chain, indices in zip(CHAINS, chains):
        put_number(data, f"{chain}_head", (indices + [0])[0])
        put_number(data, f"{chain}_length", len(indices))
        for index, after in zip(indices, indices[1:]):
            put_link(data, index, after)
    return data


# All kinds of chain, options present and absent, raises of 0 and others; texts of 121 code points and of 256, which no raise may have, on
# both chains (M-104); a suppressed alarm with an end (M-105). Every alarm may stand on the active chain, so that nothing but links tells some
# damages.
SMALL = register([2, 3, 1], [[5, 2], [1, 4], [3], [6]], {
    5: made_alarm(0xA5, 5, 2, 8, [b"nf", b"n3"], MOST_RAISES, queue=257, id=b"a", type=b"link", cause=b"lease-lost", tenant=b"t", slice=b"",
                  region="Gr\u00fcn".encode(), text=("caf\u00e9 \u20ac" + "x" * 115).encode(), details=b"\xff\x00{}"),
    2: made_alarm(0x5A, 0, 3, 4, [b"store", b"shard"], 0, end=0x0102030405060708, id=b"b", type=b"", cause=b"other:a.b", text=b"x" * 256),
    1: made_alarm(0x00, 3, 0, 6, [b"a"], 0, cleared=7, id=b"", type=b"t", cause=b"sbi-overload", text=b"y" * 121, details=b""),
    4: made_alarm(0xFF, 1, 1, 1, [b"amf", b""], 0x00010203, cleared=0, id=b"c", type=b"t" * 64, cause=b"other:\xc3\xa9.x", text=b"z" * 256,
                  region=b"r" * 128),
    3: made_event(1, 0, 0, b"a", id=b"a", type=b"link", cause=b"lease-lost", principal=b"op", tenant=b"t", reason=b"why", correlation=b"c-1"),
}, successes=2 ** 64 - 1, failures=3)

# The other kinds of object and scope, absent shard, an empty chain and a free chain of two; an end in history that is long past.
OTHER = register([2, 4, 3], [[], [9, 1, 8, 2], [4, 7, 3], [6, 5]], {
    9: made_alarm(1, 2, 4, 2, [b"a:b", b"c"], MOST_RAISES, id=b"i", type=b"t", cause=b"key-unavailable", text=b"\xf0\x9f\x9a\xa0"),
    1: made_alarm(2, 4, 5, 3, [b"", b"peer"], MOST_RAISES - 1, id=b"i", type=b"t", cause=b"other:x.y.z", text=b"", tenant=b"", slice=b"s"),
    8: made_alarm(3, 5, 2, 4, [b"nf", None], 1, id=b"i", type=b"t", cause=b"nrf-unreachable", text=b"", details=bytes(512)),
    2: made_alarm(4, 5, 3, 7, [b"k"], 0x80000000, end=-2 ** 63, id=b"i", type=b"t", cause=b"certificate-expired", text=b"", cleared=1),
    4: made_event(0, 1, 1, b"tenant", id=b"i", type=b"t", cause=b"key-unavailable", principal=b"", reason=b"r" * 256),
    7: made_event(1, 1, 2, id=b"", type=b"", cause=b"other:a.b", principal=b"p", tenant=b"", reason=b"", correlation=b""),
    3: made_event(0, 0, 0, b"", id=b"i", type=b"t", cause=b"lease-lost", principal="\u65e5".encode(), reason=b"x"),
})


# ---- orders: each is three numbers of four bytes

LOAD, WRITE, CHECK, FLIP = range(1, 5)


class Orders:
    """The program's input, and what it is to print."""

    def __init__(self, registers):
        self.head = bytes(0).join(registers)
        self.starts = list(itertools.accumulate(map(len, registers), initial=0))
        self.orders, self.work, self.printed, self.tried = [], bytearray(), [], set()

    def order(self, kind, x, y):
        self.orders.append((kind, x, y))

    def load(self, place, size):
        self.order(LOAD, self.starts[place], size)
        self.work = bytearray(self.head[self.starts[place]:self.starts[place] + size]) + bytes(20480 - size)

    def write(self, at, value):
        self.order(WRITE, at, value)
        put(self.work, at, value.to_bytes(4, "big"))

    def check(self, size):
        self.order(CHECK, size, 0)
        lasts = verdict(bytes(self.work[:size]))
        self.printed.append("unsound\n" if lasts is None else "sound {} {} {}\n".format(*lasts))
        return lasts

    def flip(self, size, mask):
        """Every byte in turn: a line for 64 verdicts."""
        self.order(FLIP, size, mask)
        row = ""
        for at in range(size):
            self.work[at] ^= mask
            row += "-" if verdict(bytes(self.work[:size])) is None else "s"
            self.work[at] ^= mask
            if at % 64 == 63:
                self.printed.append(row + "\n")
                row = ""

    def damaged(self, place, size, *writes):
        """A register with some numbers changed, unless the same bytes were tried before."""
        data = bytearray(self.head[self.starts[place]:self.starts[place] + size])
        for at, value in writes:
            put(data, at, value.to_bytes(4, "big"))
        if bytes(data) in self.tried:
            return None
        self.tried.add(bytes(data))
        self.load(place, size)
        for at, value in writes:
            self.write(at, value)
        return self.check(size)

    def stdin(self):
        tail = b"".join(value.to_bytes(4, "big") for order in self.orders for value in order)
        return len(self.head).to_bytes(4, "big") + self.head + tail

    def stdout(self):
        return "".join(self.printed).encode()


def links(data):
    """Where the numbers of a register lie that name a record: heads and next indices."""
    heads = [LAYOUT["header"][f"{chain}_head"][0] for chain in CHAINS]
    return heads + [WIDTH * index for index in range(1, len(data) // WIDTH)]


def word(data, at):
    return int.from_bytes(data[at:at + 4], "big")


def structure(orders, place, data):
    """Links, lengths, limits and slices."""
    size, count, places = len(data), len(data) // WIDTH - 1, links(data)
    lengths = [LAYOUT["header"][f"{chain}_length"][0] for chain in CHAINS]
    limits = [LAYOUT["header"][name][0] for name in "AHE"]
    # every link to every record, to the header and past the end: cycles, self-links, shared tails, records on no chain
    for at in places:
        for value in [*range(count + 2), 2 ** 16, 2 ** 31, 2 ** 32 - 1]:
            orders.damaged(place, size, (at, value))
    # two links exchanged: some give a chain's records to another
    for a, b in itertools.combinations(places, 2):
        orders.damaged(place, size, (a, word(data, b)), (b, word(data, a)))
    # lengths off by one, alone and against one another; a chain given to another with its length
    for at in lengths:
        for value in (word(data, at) + 1, max(word(data, at) - 1, 0), 0, 2 ** 32 - 1):
            orders.damaged(place, size, (at, value))
    for a, b in itertools.permutations(range(4), 2):
        orders.damaged(place, size, (lengths[a], word(data, lengths[a]) + 1), (lengths[b], max(word(data, lengths[b]) - 1, 0)))
        orders.damaged(place, size, (places[a], word(data, places[b])), (lengths[a], word(data, lengths[b])))
        orders.damaged(place, size, (places[a], word(data, places[b])), (lengths[a], word(data, lengths[b])),
                       (places[b], word(data, places[a])), (lengths[b], word(data, lengths[a])))
    # a chain that ends in the record of another, its length with it, so that all sums are right
    for a, b in itertools.permutations(range(4), 2):
        for index in range(1, count + 1):
            orders.damaged(place, size, (places[a], index), (lengths[a], 1), (lengths[b], word(data, lengths[b]) + word(data, lengths[a]) - 1))
    # limits with the same sum, and others
    for a, b in itertools.permutations(limits, 2):
        for step in (1, 2):
            if word(data, a) > step:
                orders.damaged(place, size, (a, word(data, a) - step), (b, word(data, b) + step))
    for at in limits:
        for value in (0, word(data, at) + 1, word(data, at) - 1, 65535, 65536, 2 ** 32 - 1, 2 ** 32 - count):
            orders.damaged(place, size, (at, value))
    # slices that are too short or too long, and whole
    for length in [*range(0, 64, 4), 1535, 1536, 1537, size - WIDTH, size - 1, size + 1, size + 4, size + WIDTH, size]:
        orders.load(place, size)
        orders.check(length)


def scratch(orders, place, data):
    """One record more or less, with the length and a limit that go with it."""
    size, count = len(data), len(data) // WIDTH - 1
    header = LAYOUT["header"]
    for limit in "AHE":
        at = header[limit][0]
        more = [(at, word(data, at) + 1), (header["free_head"][0], count + 1), (WIDTH * (count + 1), word(data, header["free_head"][0])),
                (header["free_length"][0], word(data, header["free_length"][0]) + 1)]
        for writes in (more, more[:3], more[:1] + more[3:], more[1:]):
            orders.load(place, size)
            for write in writes:
                orders.write(*write)
            orders.check(size + WIDTH)


def raises(orders, place, data):
    """The bytes of raises in every record and in the header: any value is sound in an alarm, and none but 0 elsewhere (M-100)."""
    for index in range(len(data) // WIDTH):
        for value in (0, MOST_RAISES):
            orders.damaged(place, len(data), (WIDTH * index + LAYOUT["alarm"]["raises"], value))


def ends(orders, place, data):
    """Every state with and without an end, with wrong option bytes and with bytes of an end that is absent, in the first alarm of each chain; and
    the bytes of an end in every record and in the header (M-105)."""
    fields, size = LAYOUT["alarm"], len(data)
    state, option, high, low = fields["state"], fields["end"]["present"] - 3, fields["end"]["at"], fields["end"]["at"] + 4
    for index in (chain[0] for chain in sound_chains(data)[:2] if chain):
        start = WIDTH * index
        orders.load(place, size)
        orders.write(start + high, 0)
        for value, present, time in itertools.product(range(6), range(3), range(2)):
            if (present, time) == (0, 0):
                orders.write(start + state, value << 24 | word(data, start + state) & 0xFFFFFF)
            if time == 0:
                orders.write(start + option, word(data, start + option) & ~0xFF | present)
            orders.write(start + low, time)
            orders.check(size)
    for index in range(size // WIDTH):
        start = WIDTH * index
        orders.damaged(place, size, (start + option, word(data, start + option) ^ 1))
        orders.damaged(place, size, (start + low, word(data, start + low) ^ 1))


def main():
    orders = Orders([SMALL, OTHER])
    for place, data in enumerate([SMALL, OTHER]):
        assert orders.damaged(place, len(data)) is not None, "the register is not sound"
        structure(orders, place, data)
        scratch(orders, place, data)
        raises(orders, place, data)
        ends(orders, place, data)
    orders.load(0, len(SMALL))
    for mask in (0x01, 0x80, 0xFF):
        orders.flip(len(SMALL), mask)
    orders.load(1, len(OTHER))
    orders.flip(len(OTHER), 0x01)
    assert len(orders.stdin()) <= 65536, "the program's buffer is too small"
    folder = ROOT / "crates/register_damaged"
    (folder / "stdin").write_bytes(orders.stdin())
    (folder / "stdout").write_bytes(orders.stdout())


if __name__ == "__main__":
    main()
