"""Whether texts are measured as document 02 has it (M-104): the model on the smallest inputs that tell readings apart, and whether these tell
wrong ways to measure from the right one. compare/test_differential.py runs these checks, and tries the same ways in the register's place."""
import always
import imports  # noqa: F401  (finds the list of checks)
import model
import wrong_characters
from calls import call
from checklist import faults_of
from differential import modelled
from generate import opened
from orders import Step
from records import LAYOUT, WIDTH, alarm_of
from test_model import RB, Station, after, unlike
from twins import are_twins, differ

E_ACUTE, EURO, CABIN = "é".encode(), "€".encode(), "\U0001F6A1".encode()  # of two, three and four bytes
LONG, FULL, OVER = b"x" * 121, E_ACUTE * 60 + EURO * 38 + b"x" * 22, E_ACUTE * 61 + EURO * 37 + b"x" * 23  # the last two in 256 bytes


def texts(station, chain):
    return [alarm["text"] for alarm in station.alarms(chain)]


# ---- what is counted

# a raise's text, and what the raise gives: code 1 for Raised, or the number of a refusal
SENT = {
    "none": (b"", 1),
    "119 letters": (b"x" * 119, 1),
    "120 letters": (b"x" * 120, 1),
    "121 letters": (LONG, 33),
    "256 letters": (b"x" * 256, 33),
    "257 letters": (b"x" * 257, 26),
    "120 of two bytes": (E_ACUTE * 120, 1),
    "121 of two bytes": (E_ACUTE * 121, 33),
    "128 of two bytes": (E_ACUTE * 128, 33),
    "85 of three bytes": (EURO * 85, 1),
    "120 of three bytes": (EURO * 120, 26),
    "64 of four bytes": (CABIN * 64, 1),
    "65 of four bytes": (CABIN * 65, 26),
    "120 in 256 bytes": (FULL, 1),
    "121 in 256 bytes": (OVER, 33),
    "60 letters with marks": ("e\u0301".encode() * 60, 1),
    "61 letters with marks": ("e\u0301".encode() * 61, 33),
    "120 times U+0000": (bytes(120), 1),
    "121 times U+0000": (bytes(121), 33),
    "U+0000 and 120 letters": (b"\0" + b"x" * 120, 33),
    "U+0000 between 60 letters and 60": (b"x" * 60 + b"\0" + b"x" * 60, 33),
    "120 letters and no UTF-8": (b"x" * 120 + b"\xff", 27),
    "121 letters and no UTF-8": (LONG + b"\xff", 27),
    "no UTF-8 and 121 letters": (b"\xff" + LONG, 27),
    "121 letters and a cut one": (LONG + CABIN[:3], 27),
}


def sent(_root):
    for name, (text, wanted) in SENT.items():
        station = Station()
        yield from unlike(name, station(1, text=text), wanted)
        stored = texts(station, "active") + texts(station, "history")
        yield from unlike(f"{name}: stored", stored, [text, text] if wanted == 1 else [])
        yield from unlike(f"{name}: answered", station.body and alarm_of(station.body)["text"], text if wanted == 1 else None)


# ---- when

TOO_LONG = call(1, text=LONG)
# a call, the room for its answer, and the number that it is refused with
ORDER = {
    "alone": (TOO_LONG, 1552, 33),
    "a wrong byte of the details": (TOO_LONG[:-1] + b"\2", 1552, 33),
    "without its last byte": (TOO_LONG[:-1], 1552, 33),
    "a byte more": (TOO_LONG + b"\0", 1552, 33),
    "details that are too long": (call(1, text=LONG, details=b"d" * 513), 1552, 33),
    "too short an answer slice": (TOO_LONG, 1551, 33),
    "no answer slice": (TOO_LONG, 0, 33),
    "an end within the text": (TOO_LONG[:-2], 1552, 24),
    "an empty region": (call(1, text=LONG, region=b""), 1552, 29),
    "no cause": (call(1, text=LONG, cause=b"z"), 1552, 28),
    "no severity": (call(1, text=LONG, severity=6), 1552, 25),
}


def order(_root):
    for name, (data, room, wanted) in ORDER.items():
        yield from unlike(name, Station().step(data, room), wanted)
    station = Station()
    yield from unlike("a register that is not sound", model.step(station.register[:-1], TOO_LONG, bytearray(1552)), (22, 0))


def whatever_is_held(_root):
    """A refusal changes nothing, which Station looks at."""
    yield from unlike("the alarm is active", after((1, {}))(1, text=LONG), 33)
    yield from unlike("the alarm is suppressed", after((1, {}), (4, {}))(1, text=LONG), 33)
    yield from unlike("at the active limit", after((1, {}), a=1)(1, **RB, text=LONG), 33)
    yield from unlike("the id is active", after((1, {}))(1, object=(6, b"b"), text=LONG), 33)
    yield from unlike("raised with a text that fits", after((1, {}))(1, text=FULL), 2)


# ---- other strings

# calls before, a call, and its code
OTHERS = {
    "a reason of 256 letters": ([], (5, dict(reason=b"x" * 256)), 10),
    "a reason of 256 letters, with an event": ([(1, {})], (6, dict(reason=b"x" * 256)), 6),
    "a denial of 128 letters": ([(1, {})], (5, dict(denial=b"x" * 128, authorised=0)), 8),
    "a region of 121 letters": ([], (1, dict(region=LONG)), 1),
    "a region of 128 letters in a clear": ([], (2, dict(region=b"x" * 128)), 4),
    "details of 512 letters": ([], (1, dict(details=b"x" * 512)), 1),
}


def others(_root):
    for name, (calls, (op, values), wanted) in OTHERS.items():
        yield from unlike(name, after(*calls)(op, **values), wanted)


# ---- longer texts that a register holds

ENTRY = b"y" * 256  # the text of history's oldest entry
HELD = [LONG, b"x" * 256, E_ACUTE * 128, OVER]
# a call, its code; how often the text is in its answer, along the active chain, and along history behind the oldest entry
CARRIED = [
    ((3, {}), 7, 1, 1, 1),
    ((4, {}), 6, 1, 1, 1),
    ((5, {}), 7, 1, 1, 1),
    ((6, {}), 6, 1, 1, 1),
    ((2, {}), 3, 0, 0, 1),
    ((7, dict(time=1)), 11, 0, 0, 1),
    ((8, {}), 11, 1, 1, 0),
    ((10, {}), 11, 0, 1, 0),
    ((11, {}), 11, 0, 1, 0),
    ((1, dict(text=LONG)), 33, 0, 1, 0),
]


def holding(text, entry=ENTRY):
    station = Station()
    station.register[:] = always.holding(dict(text=text), dict(text=entry)).register
    return station


def carried(_root):
    """Nothing is cut: not in answers, not in place, not in history."""
    for text in HELD:
        for (op, values), code, answered, active, entries in CARRIED:
            station, name = holding(text), f"{len(text)} bytes, operation {op}"
            yield from unlike(name, station(op, **values), code)
            found = [alarm_of(station.body)["text"]] if len(station.body or b"") == WIDTH else []
            yield from unlike(f"{name}: answered", found, [text] * answered)
            yield from unlike(f"{name}: active", texts(station, "active"), [text] * active)
            yield from unlike(f"{name}: history", texts(station, "history"), [ENTRY] + [text] * entries)


def listed(_root):
    station = holding(LONG)
    station(9)
    yield from unlike("history", alarm_of(station.body)["text"], ENTRY)


def replaced(_root):
    """An answer Updated has its own text, whichever is longer, and entries of before keep theirs."""
    for text in (b"", b"y", FULL):
        station = holding(LONG)
        yield from unlike("code", station(1, text=text), 2)
        yield from unlike("answered", alarm_of(station.body)["text"], text)
        yield from unlike("texts", (texts(station, "active"), texts(station, "history")), ([text], [ENTRY, text]))


def sound(_root):
    """A stored text is judged by its bytes and by UTF-8, on each chain."""
    for chain, active, entry in (("active", True, False), ("history", False, True)):
        for text, wanted in [(LONG, 11), (b"x" * 256, 11), (OVER, 11), (CABIN * 64, 11), (LONG + b"\xff", 22), (LONG + CABIN[:3], 22)]:
            station = holding(text if active else b"", text if entry else b"")
            yield from unlike(f"{text!r} on the {chain} chain", station(10), wanted)
    station = holding(b"x" * 256)
    at, width = LAYOUT["alarm"]["text"]["len"]
    station.register[WIDTH + at:WIDTH + at + width] = (257).to_bytes(width, "big")
    yield from unlike("257 bytes", station(10), 22)


# ---- twins

# two raises and whether they may stand at one place of twin lists
PAIRS = [
    (call(1), call(1, text=b"x" * 120), True),
    (call(1, text=b"x" * 120), call(1, text=FULL), True),
    (call(1, text=CABIN * 64), call(1, text=FULL, details=b"d"), True),
    (call(1) + b"\0", call(1, text=FULL) + b"\0", True),
    (call(1) + b"\0", call(1, text=FULL) + b"\1", False),
    (TOO_LONG, TOO_LONG, True),
    (call(1, text=b"x" * 120), TOO_LONG, False),
    (call(1), TOO_LONG, False),
    (TOO_LONG, call(1, text=b"y" * 121), False),
    (TOO_LONG, call(1, text=LONG, details=b"d"), False),
    (call(1), call(1, text=b"x" * 257), False),
    (call(1), call(1, text=b"\xff"), False),
    (call(1), call(1, text=b"x", severity=4), False),
    (call(1), call(1, text=b"x", details=b"d", time=1), False),
    (call(2), call(2, time=1), False),
]


def pairs(_root):
    for one, other, wanted in PAIRS:
        for data, twin in ((one, other), (other, one)):
            yield from unlike(f"{data.hex()} and {twin.hex()}", are_twins(Step(data, 1552), Step(twin, 1552)), wanted)
    yield from unlike("two rooms for answers", are_twins(Step(call(1), 1552), Step(call(1, text=b"x"), 1553)), False)


def outcome(data):
    """Of a call on a fresh register."""
    return [*modelled([opened((2, 3, 1)), Step(data, 1552)])][-1]


def limit_needed(_root):
    """A text that is too long beside one that fits is told, and so would not be a twin's; two that fit are not."""
    step, fitting = Step(call(1), 1552), outcome(call(1, text=b"x" * 120))
    yield from unlike("121", differ(step, fitting, outcome(TOO_LONG)), "twins: number and length (0, 1552) and (33, 0)")
    yield from unlike("120 in 256 bytes", differ(step, fitting, outcome(call(1, text=FULL))), None)


# ---- wrong ways to measure

SMALLEST = [sent, order, whatever_is_held, others]
ON_GIVEN = [carried, listed, replaced, sound]


def told(checks, wrong):
    """Whether one of the checks fails in a wrong way."""
    with wrong():
        return any(faults_of(check, None) for check in checks)


def ways(_root):
    """The smallest inputs tell each wrong way to measure from the right one; what shows only on given registers is not told by others."""
    for name, wrong in (wrong_characters.WRONG | wrong_characters.WRONG_ON_GIVEN).items():
        fresh, on_given = told(SMALLEST, wrong), told(ON_GIVEN, wrong)
        if fresh != (name in wrong_characters.WRONG):
            yield f"{name}: told by lists from a fresh register: {fresh}"
        if not (fresh or on_given):
            yield f"{name} is not told"


CHECKS = {
    "texts: what is counted": sent,
    "texts: order of a call's faults": order,
    "texts: whatever the register holds": whatever_is_held,
    "texts: other strings": others,
    "texts: longer ones are carried whole": carried,
    "texts: longer ones are listed whole": listed,
    "texts: longer ones are replaced": replaced,
    "texts: longer ones are sound": sound,
    "texts: raises of twins": pairs,
    "texts: twins need the limit": limit_needed,
    "texts: wrong ways to measure": ways,
}
