"""End times beside the call's time (document 02, M-105: 34 for an end that is not later), and calls of operation 13 with them."""
from fields import joined, pieces, string, time

UNTIL = 13  # the operation
EARLIEST, LATEST = -2**63, 2**63 - 1
TIMES = [0, 1, 2, 255, 256, 2**31, 2**32, LATEST - 1, LATEST, -1, -2, -256, EARLIEST, EARLIEST + 1]


def beside(t):
    """The time before one, itself and the one after it, as far as there are such."""
    return [end for end in (t - 1, t, t + 1) if EARLIEST <= end <= LATEST]


def pairs():
    """A call's time and an end: beside one another, at both ends, and with the bytes of each other's negative."""
    for t in TIMES:
        ends = [*beside(t), EARLIEST, LATEST, 0, -1, t ^ 1, t ^ 256, ~t]
        yield from ((t, end) for end in dict.fromkeys(ends))


def until(t, end, changes=()):
    return joined(UNTIL, {"time": time(t), "end": time(end)} | dict(changes))


def other_faults():
    """An end that is not later, and one that is, with a fault in a later field or of length."""
    for end in (-1, 0, 1):
        changes = {"time": time(0), "end": time(end)}
        for field, wrong in [("id", b"\0\0\0\x41"), ("id", b"\0\0\0\1\xff"), ("principal", b"\0\0\0\2\xc3\x28"), ("tenant?", b"\2"),
                             ("reason", b"\0\0\1\1"), ("scope", b"\3"), ("scope", b"\0\0\0\0\1\x80"), ("correlation?", b"\xff"),
                             ("critical-allowed", b"\2"), ("authorised", b"\2"), ("denial", b"\0\0\0\x81"), ("denial", b"\0\0\0\1\xff")]:
            yield joined(UNTIL, changes | {field: wrong})
        whole, parts = joined(UNTIL, changes), pieces(UNTIL, changes)
        yield from (bytes([UNTIL]) + b"".join(parts[:n]) for n in range(len(parts)))
        yield from (whole[:-1], whole + b"\0", whole + b"\xff\xff", whole + whole)


def long_strings():
    """A reason and a denial of more than 120 code points, which only a raise's text may not have."""
    for field, limit in (("reason", 256), ("denial", 128)):
        yield from (joined(UNTIL, {field: string(b"x" * n)}) for n in (120, 121, limit))


def calls():
    return [*(until(t, end) for t, end in pairs()), *other_faults(), *long_strings()]
