"""Whether panel blocks are document 02's (M-102): the model on the smallest inputs that tell its readings apart, with what another reading would
give, and whether these inputs tell wrong ways from the right one. compare/test_differential.py runs these checks, and compare/test_panel_met.py
tries the same ways in the register's place."""
import panel
import panel_lists
import wrong_panel
from records import LAYOUT, WIDTH, put, put_number
from test_model import RB, after, unlike
from twins import masked_register

RAISE, CLEAR, ACKNOWLEDGE, SUPPRESS = (1, {}), (2, {}), (3, {}), (4, {})
UNTIL, LIFT = (13, dict(end=1)), (14, dict(time=1))
ZEROS, OPEN = "00 00 00 00 00000000", "00 3f 00 00 00000000"  # blocks; the mask of the second lets everything through
LOOK = None, 0


def raised(severity, **values):
    return 1, dict(severity=severity, **values)


def masked(mask):
    return f"00 {mask} 00 00 00000000"


# calls on a fresh register; the block before; place and value of a write, or a look; the block after it; and what another reading gives, by the
# wrong way that is that reading
BLOCKS = {
    "102.1": [
        ([raised(0)], OPEN, LOOK, "01 3f 01 01 00000001", "severity 0 not lit", "00 3f 00 00 00000001"),
        ([RAISE], ZEROS, LOOK, "08 00 00 00 00000001", "flags after the mask", "00 00 00 00 00000001"),
    ],
    "102.2": [
        ([RAISE, ACKNOWLEDGE], ZEROS, LOOK, "00 00 00 00 00000001", "acknowledged alarms lit", "08 00 00 00 00000001"),
        ([RAISE, SUPPRESS], ZEROS, LOOK, "00 00 00 00 00000001", "suppressed alarms lit", "08 00 00 00 00000001"),
        ([RAISE, UNTIL], ZEROS, LOOK, "00 00 00 00 00000001", "alarms suppressed until a time lit", "08 00 00 00 00000001"),
        ([RAISE, RAISE], ZEROS, LOOK, "08 00 00 00 00000001", "only raised alarms lit", "00 00 00 00 00000001"),
        ([RAISE], ZEROS, LOOK, "08 00 00 00 00000001", "only updated alarms lit", "00 00 00 00 00000001"),
        ([RAISE, CLEAR], ZEROS, LOOK, "00 00 00 00 00000000", "history lit", "08 00 00 00 00000000"),
        ([RAISE, UNTIL, LIFT], ZEROS, LOOK, "08 00 00 00 00000001", "lifted alarms not lit", "00 00 00 00 00000001"),
        ([RAISE, SUPPRESS, raised(5)], OPEN, LOOK, "00 3f 00 00 00000001", "suppressed alarms that are raised again lit", "20 3f 06 01 00000001"),
    ],
    "102.3": [
        ([], masked("c0"), LOOK, ZEROS, "the mask not cleared at a look", masked("c0")),
        ([], ZEROS, (1, 0xFF), OPEN, "the value written not cleared", masked("ff")),
        ([], masked("c0"), (0, 0), ZEROS, "the mask not cleared at a write of another byte", masked("c0")),
        ([], masked("c0"), (9, 0), ZEROS, "the mask not cleared at a write of another byte", masked("c0")),
        ([], masked("7f"), LOOK, OPEN, "bit 6 kept", masked("7f")),
    ],
    "102.4": [
        ([RAISE, raised(4, **RB)], masked("08"), LOOK, "18 08 04 01 00000002", "the highest flag, then the mask", "18 08 00 00 00000002"),
        ([RAISE, raised(4, **RB)], masked("08"), LOOK, "18 08 04 01 00000002", "the highest flag alone", "18 08 05 01 00000002"),
        ([RAISE], OPEN, LOOK, "08 3f 04 01 00000001", "the number itself", "08 3f 03 01 00000001"),
        ([RAISE], OPEN, LOOK, "08 3f 04 01 00000001", "the highest bit of the mask alone", "08 3f 06 01 00000001"),
        ([raised(5)], OPEN, LOOK, "20 3f 06 01 00000001", "the leading zeros themselves", "20 3f 02 01 00000001"),
        ([RAISE], ZEROS, LOOK, "08 00 00 00 00000001", "a mask bit hides", "08 00 04 01 00000001"),
        ([RAISE], ZEROS, LOOK, "08 00 00 00 00000001", "byte 3 follows byte 0", "08 00 00 01 00000001"),
        ([raised(0)], OPEN, LOOK, "01 3f 01 01 00000001", "byte 3 only above severity 0", "01 3f 01 00 00000001"),
        ([RAISE], OPEN, LOOK, "08 3f 04 01 00000001", "byte 3 is byte 2", "08 3f 04 04 00000001"),
        ([RAISE, raised(4, **RB)], OPEN, LOOK, "18 3f 05 01 00000002", "the lowest flag", "18 3f 04 01 00000002"),
    ],
    "102.5": [
        ([RAISE], ZEROS, (3, 7), "08 00 00 00 00000001", "a write to byte 3 stored", "08 00 00 07 00000001"),
        ([RAISE], ZEROS, (0, 0), "08 00 00 00 00000001", "a write to byte 0 stored", "00 00 00 00 00000001"),
        ([RAISE], ZEROS, (1, 8), "08 08 04 01 00000001", "a write of the mask counts at the next call", "08 08 00 00 00000001"),
        ([RAISE], ZEROS, (3, 7), "08 00 00 00 00000001", "a write to another byte does nothing", ZEROS),
        ([RAISE], "17 3f 34 56 789abcde", LOOK, "08 3f 04 01 00000001", "flags once lit stay", "1f 3f 05 01 00000001"),
    ],
    "102.6": [
        ([], ZEROS, (257, 1), ZEROS, "the place cut to a byte", masked("01")),
        ([], ZEROS, (9, 1), ZEROS, "the place cut to three bits", masked("01")),
        ([], ZEROS, (65537, 1), ZEROS, "the place cut to two bytes", masked("01")),
        ([], ZEROS, (4294967295, 1), ZEROS, "a write to a byte behind the block is one of the mask", masked("01")),
        ([], ZEROS, (8, 1), ZEROS, "a write to any byte is one of the mask", masked("01")),
    ],
    "102.7": [
        ([RAISE, SUPPRESS], ZEROS, LOOK, "00 00 00 00 00000001", "the active length without suppressed alarms", ZEROS),
        ([RAISE, ACKNOWLEDGE], ZEROS, LOOK, "00 00 00 00 00000001", "the active length without acknowledged alarms", ZEROS),
        ([RAISE, SUPPRESS], ZEROS, LOOK, "00 00 00 00 00000001", "the active length little-endian", "00 00 00 00 01000000"),
    ],
    "102.10": [
        ([], "12 ff 34 56 789abcde", LOOK, OPEN, "the block made only where an alarm is active", "12 ff 34 56 789abcde"),
    ],
    # what else a block shows, without another reading's answer
    "more": [
        ([raised(5)], OPEN, LOOK, "20 3f 06 01 00000001", None, None),
        ([raised(0), raised(5, **RB)], "3e 21 00 00 00000000", LOOK, "21 21 06 01 00000002", None, None),
        ([raised(5), raised(0, **RB)], ZEROS, (1, 0x1F), "21 1f 01 01 00000002", None, None),
        ([RAISE, RAISE, raised(4, **RB)], masked("10"), (1, 8), "18 08 04 01 00000002", None, None),
        ([RAISE, ACKNOWLEDGE, RAISE], OPEN, LOOK, "00 3f 00 00 00000001", None, None),
        ([RAISE, raised(5, **RB), ACKNOWLEDGE], OPEN, (7, 0xFF), "20 3f 06 01 00000002", None, None),
        ([RAISE, (7, dict(time=1))], OPEN, (2, 9), OPEN, None, None),
    ],
}


def called(register, former, at=None, value=0):
    """Number, length and the block after a call; the register is only read."""
    block, before = bytearray(former), bytes(register)
    number, length = panel.called(register, block, at, value)
    if register != before:
        raise ValueError("a panel call changes the register")
    return number, length, block.hex()


def found_of(calls, former, write):
    return called(after(*calls).register, bytes.fromhex(former), *write)


def rows(name):
    def check(_root):
        for calls, former, write, wanted, _, _ in BLOCKS[name]:
            yield from unlike(f"{calls}, {former}, {write}", found_of(calls, former, write), (0, 0, bytes.fromhex(wanted).hex()))
    return check


def others(_root):
    """Another reading gives what is said of it."""
    for calls, former, write, taken, way, other in (row for table in BLOCKS.values() for row in table if row[4]):
        with wrong_panel.WRONG[way]():
            found = found_of(calls, former, write)
        yield from unlike(f"{way}: {calls}, {former}, {write}", found, (0, 0, bytes.fromhex(other).hex()))
        if taken == other:
            yield f"{way}: {calls}, {former}, {write}: the readings give the same"


# ---- refusals

def short():
    """A register that is one byte short."""
    return after(RAISE).register[:-1]


C0, C0_SHORT, C0_LONG = (bytes([0x12, 0xC0, *range(size - 2)]) for size in (8, 7, 9))
# whether the register is sound; the block, which stays as it is; a look or a write; the number; and what another reading gives, by its wrong way
REFUSED = [
    (False, C0_SHORT, LOOK, 22, "30 before 22", (30, 0, C0_SHORT.hex())),
    (False, C0_LONG, LOOK, 22, "30 before 22", (30, 0, C0_LONG.hex())),
    (False, C0, LOOK, 22, "the mask cleared on a refusal", (22, 0, (C0[:1] + b"\0" + C0[2:]).hex())),
    (False, C0, (1, 0xFF), 22, "30 in the place of 22", (30, 0, C0.hex())),
    (True, C0_SHORT, LOOK, 30, "the mask cleared on a refusal", (30, 0, (C0[:1] + b"\0" + C0_SHORT[2:]).hex())),
    (True, C0_SHORT, LOOK, 30, "seven bytes accepted", (0, 0, "08000000000000")),
    (True, C0_LONG, LOOK, 30, "nine bytes accepted", (0, 0, "080000000000000106")),
    (True, C0_LONG, (1, 8), 30, "22 in the place of 30", (22, 0, C0_LONG.hex())),
    (True, b"", LOOK, 30, "22 in the place of 30", (22, 0, "")),
    (True, bytes(8 + 256), LOOK, 30, "22 in the place of 30", (22, 0, "00" * 264)),
]


def refused(_root):
    """102.8: 22, then 30; every byte of the block stays."""
    for sound, block, write, number, _, _ in REFUSED:
        register = after(RAISE).register if sound else short()
        yield from unlike(f"sound {sound}, {block.hex()}, {write}", called(register, block, *write), (number, 0, block.hex()))


def others_refused(_root):
    for sound, block, write, _, way, other in REFUSED:
        with wrong_panel.WRONG[way]():
            found = called(after(RAISE).register if sound else short(), block, *write)
        yield from unlike(f"{way}: sound {sound}, {block.hex()}, {write}", found, other)


def returned(_root):
    """102.6, 102.9: 0 and 0, at every place that is written to; another reading gives 30, or 8."""
    for at in (0, 1, 7, 8, 9, 257, 4294967295):
        yield from unlike(f"write to {at}", called(after().register, bytes(8), at, 0)[:2], (0, 0))
    for way, wanted in (("a write behind the block refused with 30", (30, 0)), ("the length is 8", (0, 8))):
        with wrong_panel.WRONG[way]():
            yield from unlike(way, called(after().register, bytes(8), 8, 0)[:2], wanted)


# ---- many alarms, all masks

def lengths(_root):
    """Bytes 4 to 7 are one number, big-endian."""
    yield from unlike("300 alarms", called(panel_lists.many(300).register, bytes.fromhex(masked("3f"))), (0, 0, "283f06010000012c"))


def masks(_root):
    """Byte 2 by document 01's form, "Leading zeros of flags and mask": 8 less those of both in eight bits."""
    for lit in range(64):
        for mask in range(64):
            both = f"{lit & mask:08b}"
            yield from unlike(f"{lit} and {mask}", panel.highest(lit, mask), 8 - len(both) + len(both.lstrip("0")))


# ---- no text lights a lamp

def not_utf8(register, index):
    """The register with a text in this record that is not UTF-8."""
    found = bytearray(register)
    put(found, WIDTH * index + LAYOUT["alarm"]["text"]["len"][0], b"\0\1")
    put(found, WIDTH * index + LAYOUT["alarm"]["text"]["at"], b"\xff")
    return found


def unsound(_root):
    """102.8: a register that is not sound, whichever record makes it so, gives 22: one on each chain."""
    station = after(RAISE, (5, {}))
    for name in ("active", "history", "audit", "free"):
        damaged = bytearray(station.register)
        damaged[WIDTH * (station.chain(name)[0] + 1) - 1] = 1
        yield from unlike(f"a record of the {name} chain", called(damaged, C0), (22, 0, C0.hex()))
    damaged = bytearray(station.register)
    put_number(damaged, "active_length", 2)
    yield from unlike("the active length", called(damaged, C0, 1, 8), (22, 0, C0.hex()))


def texts(_root):
    """102.11: sound registers that differ in texts and details alone give equal blocks; one that its text makes unsound gives 22."""
    calls = [raised(4), RAISE, ACKNOWLEDGE, raised(2, **RB)]
    sent = {}, dict(text=b"x" * 120, details=b"d")
    one, other = (after(*((op, values | (fields if op == 1 else {})) for op, values in calls)) for fields in sent)
    if one.register == other.register or masked_register(one.register) != masked_register(other.register):
        yield "the registers do not differ in texts and details alone"
    orders = [order for order in panel_lists.every() if order.block is not None]
    for order in orders:
        found = [called(station.register, *order) for station in (one, other)]
        yield from unlike(f"{order}", *found)
    for order in panel_lists.looks():
        damaged = [called(not_utf8(station.register, station.chain("active")[0]), *order) for station in (one, other)]
        yield from unlike(f"a text that is not UTF-8: {order}", damaged[0], (22, 0, order.block.hex()))
        yield from unlike(f"two unsound registers: {order}", *damaged)


# ---- wrong ways

SMALLEST = [*map(rows, BLOCKS), refused, unsound, returned, lengths]


def told(check, wrong):
    """A way that changes the register is told too."""
    try:
        with wrong():
            return bool(list(check(None)))
    except ValueError:
        return True


def ways(_root):
    """The smallest inputs tell each wrong way from the right one."""
    for name, wrong in wrong_panel.WRONG.items():
        if not any(told(check, wrong) for check in SMALLEST):
            yield f"{name} is not told"


CHECKS = {
    **{f"panel: the smallest blocks: {name}": rows(name) for name in BLOCKS},
    "panel: other readings of blocks": others,
    "panel: refusals": refused,
    "panel: other readings of refusals": others_refused,
    "panel: registers that are not sound": unsound,
    "panel: what is returned": returned,
    "panel: more than 255 active alarms": lengths,
    "panel: flags and masks": masks,
    "panel: no text lights a lamp": texts,
    "panel: wrong ways": ways,
}
