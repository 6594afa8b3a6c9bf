"""Lists with panel calls (M-102 of document 02): those that are the same on every run, and panel calls by chance in other lists.

The Rust has no panel, and passes over these calls: lists without operations 13 and 14 are given to it as others are.
"""
import itertools
import random

import always
from calls import call
from generate import ample, opened
from orders import Given, Open, Panel, Step
from records import WIDTH, alarm_of, alarm_record, put_number, unlinked
from register import Register

FORMER = bytes.fromhex("d20034569abcdef0")  # bytes that no block has, around a mask
PLACES = [0, *range(2, 10), 255, 256, 257, 513, 65537, 2**24 + 1, 2**31 + 1, 4294967295]
MASKS = [0, 0x3F, 0xFF, 0xC0, 0x80, 0x41, 1, 8, 0x17]
LENGTHS = [0, 1, 7, 9, 16]
B = dict(id=b"b", object=(6, b"b"))
LOOK = Panel()


# ---- panel calls

def block(mask, size=8):
    """A former block of so many bytes."""
    return (FORMER[:1] + bytes([mask]) + FORMER[2:] + bytes(range(size)))[:size]


def looks():
    return [Panel(block(mask)) for mask in MASKS]


def writes():
    """Of the mask, and of every other byte, with bits 6 and 7 in the former mask; a value that the byte has not, and one that would be a mask."""
    return [*(Panel(block(mask), 1, value) for mask in (0, 0xFF) for value in MASKS),
            *(Panel(block(0xD5), at, value) for at in PLACES for value in (0x2A, 0xFF))]


def refused():
    """Blocks not of eight bytes, with bits 6 and 7 in the mask and in the value that is written."""
    return [Panel(block(0xFF, size), at, 0xFF) for size in LENGTHS for at in (None, 0, 1, 8)]


def kept():
    """The block of a card: its mask is written once, and stays."""
    return [Panel(block(0)), LOOK, Panel(at=1, value=0xF7), LOOK, LOOK, Panel(at=0, value=0xFF), Panel(at=257, value=0), Panel(at=1, value=1), LOOK]


def every():
    return [*looks(), *writes(), *refused(), *kept()]


# ---- lists of every run

def made(limits, calls, panels):
    return [opened(limits), *(Step(data, ample(limits), 0xA5) for data in calls), *panels]


def raised(severity, **values):
    return call(1, severity=severity, **values)


# one alarm of severity 3, as calls leave it
STATES = [[call(1)], [call(1), call(1)], [call(1), call(3)], [call(1), call(4)], [call(1), call(5)], [call(1), call(6)],
          [call(1), call(3), call(1)], [call(1), call(4), call(1)], [call(1), call(4), call(3)], [call(1), call(2)], [call(1), call(7, time=1)],
          [call(1), raised(5)], [call(1), call(2), raised(0)]]


def blocks():
    """Every panel call on no alarm, on one in every state and of every severity, and on one whose opening was refused; every two severities, one
    of them acknowledged or suppressed at times; every mask on three severities. The Rust is given all of these."""
    yield [opened((2, 3, 1)), *every()]
    yield [Open((0, 3, 1), 5 * WIDTH, 0x3F), *every(), Panel(block(0xC0, 8), 1, 0xC0)]
    for calls in STATES:
        yield made((2, 3, 1), calls, every())
    for severity in range(6):
        yield made((2, 3, 1), [raised(severity)], looks() + kept())
    for severities, op in itertools.product(itertools.product(range(6), repeat=2), (None, 3, 4)):
        calls = [raised(severities[0]), raised(severities[1], **B), *([call(op)] if op else [])]
        yield made((2, 3, 1), calls, [Panel(block(mask)) for mask in (0x3F, 0x0F, 1, 0)])
    three = [raised(s, id=b"%d" % s, object=(6, b"%d" % s)) for s in (0, 2, 5)]
    yield made((3, 3, 1), three, [Panel(bytes(8), 1, mask) for mask in range(256)])


def timed():
    """Alarms that are suppressed until a time and lifted, with the card's block before and after each call."""
    until, lift = call(13, end=1), call(14, time=1)
    both = [call(1), call(1, **B), until, call(13, end=1, **B), lift, call(2)]
    for calls in ([call(1), until, lift], [call(1), until, call(14), call(1), lift], [raised(0), raised(4, **B), until, lift],
                  [call(1), until, call(3), lift], [call(1), until, call(4), lift], both):
        orders = [order for data in calls for order in (Step(data, 1552, 0xA5), LOOK)]
        yield [opened((2, 4, 3)), Panel(block(0xFF)), *orders]


def many(count):
    """A register with so many active alarms, the last of them critical."""
    data = bytearray(WIDTH * (3 + count))
    for name, value in (("A", count), ("H", 1), ("E", 1)):
        put_number(data, name, value)
    alarm = alarm_of(unlinked(always.holding({}, {}).register, 1))
    for index in range(1, count + 1):
        data[WIDTH * index:WIDTH * (index + 1)] = alarm_record(alarm | {"severity": 5 if index == count else 3})
    Register(data, [list(range(1, count + 1)), [], [], [count + 1, count + 2]]).link()
    return Given(bytes(data))


def held_blocks():
    """Every panel call on registers that no list reaches, sound and not; and what needs operations 13 and 14. The Rust is not given these."""
    yield from timed()
    yield [many(300), *looks(), *kept()]
    sound = always.doubled(dict(severity=4), dict(severity=4, state=1, raises=0))
    yield [sound, *every()]
    for state in range(6):
        yield [always.holding(dict(state=state, severity=1), dict(state=5 - state, severity=2)), *every()]
    for register in (sound.register[:-1], sound.register + b"\0", b"", sound.register[:WIDTH], bytes(len(sound.register))):
        yield [Given(register), *every()]
    for place in (0, 19, WIDTH + 20, WIDTH + 21, WIDTH + 680, len(sound.register) - 1):
        damaged = bytearray(sound.register)
        damaged[place] ^= 0x80
        yield [Given(bytes(damaged)), *every()]


# ---- by chance

CHANCE = 0.12  # of one more panel call behind an order


def former(rng):
    """A block of any bytes; most are of eight."""
    size = 8 if rng.random() < 0.9 else rng.choice([*LENGTHS, 8 + 256])
    found = bytearray(rng.randbytes(size))
    if size > 1:
        found[1] = rng.choice([*MASKS, 1 << rng.randrange(8), rng.randrange(256)])
    return bytes(found)


def panel_call(rng, block_):
    """A look, a write of the mask, or of another place."""
    chance = rng.random()
    if chance < 0.4:
        return Panel(block_)
    at = 1 if chance < 0.7 else rng.choice([*PLACES, rng.randrange(2**32)])
    return Panel(block_, at, rng.choice([*MASKS, rng.randrange(256)]))


def with_panels(rng, orders):
    """The list with panel calls at some places, from a generator of their own: no other order changes. Many take the block that the one before
    left, if that has eight bytes."""
    keeps = False
    for order in orders:
        yield order
        while rng.random() < CHANCE:
            block_ = None if keeps and rng.random() < 0.6 else former(rng)
            keeps = keeps if block_ is None else len(block_) == 8
            yield panel_call(rng, block_)


def by_chance(seed, orders):
    """The list of a seed with panel calls."""
    return list(with_panels(random.Random(f"panel {seed}"), orders))
