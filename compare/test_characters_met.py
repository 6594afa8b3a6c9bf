"""What a run must meet of texts (M-104), whether lists by chance hold them, and lists that show wrong ways to measure in the register's place.
compare/test_differential.py runs these checks."""
import collections
import random

import always
import characters
import generate
from calls import call
from characters import KINDS, STORED, TWINS, is_longer, stored, tallied
from differential import Case, Difference, Tools, checked
from headline import WITH_RUST
from orders import Given, Step
from test_balance import FRESH, step
from test_characters import CABIN, E_ACUTE, EURO, FULL, LONG, OVER
from test_raises_met import tally_of
from twins import Twins

ONE = generate.opened((1, 3, 1))  # room for one alarm
OTHER = dict(id=b"b", object=(6, b"b"))


def some_list():
    """Texts at both limits and beyond, other long strings, and second faults."""
    too_long = call(1, text=LONG)
    texts = [b"x" * 120, LONG, E_ACUTE * 120, CABIN * 64, "e\u0301".encode() * 61, b"\0" + b"x" * 120, b"x" * 256, b"x" * 257, LONG + b"\xff"]
    orders = [*(step(1, text=text) for text in texts), Step(too_long + b"\0", 1552), Step(too_long[:-1], 1552), step(1, 1551, text=LONG)]
    return [ONE, *orders, step(1, **OTHER, text=LONG), step(1, region=LONG), step(5, reason=b"x" * 256), step(5, denial=b"x" * 128)]


def holding(text, entry=b""):
    return always.holding(dict(text=text), dict(text=entry))


def given_list():
    """Each operation that copies, lists or replaces a text of 121 letters, and one on the history chain."""
    acts = [step(3), step(4), step(2), step(7, time=1), step(8), step(1, text=b"y")]
    return [order for act in acts for order in (holding(LONG), act)] + [holding(b"", LONG), step(10), step(9)]


# ---- what is met

def of_width(points, number, *widths):
    return [f"{points} code points, one of width {width}, {number}" for width in widths]


RAISED, UPDATED = "33 where no text is answered Raised", "33 where no text is answered Updated"
# orders, with the kinds of the last one
MET = [
    ([FRESH, step(1)], []),
    ([FRESH, step(1, text=b"x" * 119)], ["119 code points, answered"]),
    ([FRESH, step(1, text=b"x" * 120)], of_width(120, "answered", 1)),
    ([FRESH, step(1, text=FULL)], of_width(120, "answered", 1, 2, 3) + ["120 code points in 256 bytes, answered"]),
    ([FRESH, step(1, text=E_ACUTE * 119 + CABIN)], of_width(120, "answered", 2, 4) + ["more than 120 units of UTF-16, answered"]),
    ([FRESH, step(1, text=LONG)], of_width(121, 33, 1) + [RAISED]),
    ([FRESH, step(1, text=OVER)], of_width(121, 33, 1, 2, 3) + ["121 code points in 256 bytes, 33", RAISED]),
    ([FRESH, step(1, text=E_ACUTE * 120 + CABIN)], of_width(121, 33, 2, 4) + [RAISED]),
    ([FRESH, step(1, text=E_ACUTE * 122)], [RAISED]),
    ([FRESH, step(1, text=b"x" * 256)], ["256 code points, 33", RAISED]),
    ([FRESH, step(1, text=CABIN * 64)], ["256 bytes of fewer code points, answered", "more than 120 units of UTF-16, answered"]),
    ([FRESH, step(1, text=EURO * 85)], []),
    ([FRESH, step(1, text="e\u0301".encode() * 61)], ["no more than 120 without marks, 33", RAISED]),
    ([FRESH, step(1, text=b"\0" + b"x" * 119)], of_width(120, "answered", 1) + ["U+0000 among 120, answered"]),
    ([FRESH, step(1, text=b"\0" + b"x" * 120)], of_width(121, 33, 1) + ["U+0000 before the last of 121, 33", RAISED]),
    ([FRESH, step(1, text=b"x" * 120 + b"\0")], of_width(121, 33, 1) + [RAISED]),
    ([FRESH, step(1, text=LONG + b"\xff")], ["more than 120 and no UTF-8, 27"]),
    ([FRESH, step(1, text=b"x" * 120 + b"\xff")], []),
    ([FRESH, step(1, text=b"x" * 257)], ["more than 120 in 257 bytes, 26"]),
    ([FRESH, step(1, text=LONG, region=b"")], []),
    ([FRESH, step(1), step(1, text=LONG)], of_width(121, 33, 1) + [UPDATED]),
    ([ONE, step(1), step(1, **OTHER, text=LONG)], of_width(121, 33, 1) + ["33 at the active limit"]),
    ([FRESH, step(1), step(1, object=(6, b"b"), text=LONG)], of_width(121, 33, 1) + ["33 before 31"]),
    ([FRESH, step(1, 1551, text=LONG)], of_width(121, 33, 1) + ["33 before 30"]),
    ([FRESH, Step(call(1, text=LONG) + b"\0", 1552)], of_width(121, 33, 1) + ["33 before bytes left over"]),
    ([FRESH, Step(call(1, text=LONG)[:-1], 1552)], of_width(121, 33, 1) + ["33 before an end within the details"]),
    ([FRESH, Step(call(1, text=LONG)[:-1] + b"\2", 1552)], of_width(121, 33, 1) + ["33 before a wrong byte of the details"]),
    ([FRESH, step(1, text=LONG, details=b"d" * 513)], of_width(121, 33, 1) + ["33 before details that are too long"]),
    ([FRESH, Step(call(1, text=LONG)[:-2], 1552)], []),
    ([FRESH, step(2, region=LONG)], ["a region of more than 120 code points, answered"]),
    ([FRESH, step(5, reason=b"x" * 120)], []),
    ([FRESH, step(5, reason=E_ACUTE * 121)], ["a reason of more than 120 code points, answered"]),
    ([FRESH, step(13, reason=LONG)], ["a reason of more than 120 code points, answered"]),
    ([FRESH, step(6, denial=LONG)], ["a denial of more than 120 code points, answered"]),
]
ON_ACTIVE, ON_HISTORY = "a longer one is sound on the active chain", "a longer one is sound on the history chain"
MET_ON_GIVEN = [
    ([holding(b"x" * 120), step(3)], []),
    ([holding(LONG), step(3)], ["a longer one is acknowledged", ON_ACTIVE]),
    ([holding(LONG), step(4)], ["a longer one is suppressed", ON_ACTIVE]),
    ([holding(LONG), step(5)], ["a longer one is acknowledged by policy", ON_ACTIVE]),
    ([holding(LONG), step(6)], ["a longer one is suppressed by policy", ON_ACTIVE]),
    ([holding(LONG), step(13)], ["a longer one is suppressed until a time", ON_ACTIVE]),
    ([holding(LONG), step(13), step(14, time=0)], [ON_ACTIVE, ON_HISTORY]),
    ([holding(LONG), step(13), step(14, time=1)], ["a longer one is lifted", ON_ACTIVE, ON_HISTORY]),
    ([holding(LONG), step(2)], ["a longer one is cleared", ON_ACTIVE]),
    ([holding(LONG), step(2, object=(6, b"b"))], [ON_ACTIVE]),
    ([holding(LONG), step(7, time=1)], ["a longer one is expired", ON_ACTIVE]),
    ([holding(LONG), step(1)], ["a longer one is replaced by an answer Updated", ON_ACTIVE]),
    ([holding(LONG), step(1, **OTHER)], [ON_ACTIVE]),
    ([holding(LONG), step(1, text=LONG)], of_width(121, 33, 1) + [UPDATED, "a longer one is left by a raise that is refused with 33"]),
    ([holding(LONG), step(8)], ["a longer one is listed", ON_ACTIVE]),
    ([holding(LONG), step(8, 1551)], []),
    ([holding(b"", LONG), step(8)], [ON_HISTORY]),
    ([holding(b"", LONG), step(9)], ["a longer one is listed from history", ON_HISTORY]),
    ([holding(LONG), step(3), step(8)], ["a longer one is listed", ON_ACTIVE, ON_HISTORY]),
    ([holding(LONG), FRESH, step(10)], []),
    ([Given(holding(LONG).register[:-1]), step(10)], []),
]


def texts_of(tally):
    return {name: n for name, n in tally.items() if name.startswith("texts")}


def met(_root):
    for orders, wanted in MET + MET_ON_GIVEN:
        found = texts_of(tally_of(orders) - tally_of(orders[:-1]))
        if found != {tallied(name): 1 for name in wanted}:
            yield f"{[order.call.hex() for order in orders[1:] if isinstance(order, Step)]}: {found}, not {wanted}"


def by_rust(_root):
    """Beside the Rust each kind is counted once more."""
    for orders, wanted in MET[5:9]:
        found = texts_of(tally_of(orders, Tools(oracle="oracle")))
        if found != {tallied(name, by): 1 for name in wanted for by in ("", WITH_RUST)}:
            yield f"{found}"


def lists_met(_root):
    """The lists that every run has meet every kind, and those on given registers what needs these."""
    for lists, names in ((always.texts, KINDS), (always.stored_texts, STORED)):
        yield from characters.missing(sum(map(tally_of, lists()), collections.Counter()), names)


def unmet(_root):
    """A run must meet every kind; those of given registers and of the Rust only where these are there."""
    names = [*map(tallied, KINDS), *map(tallied, TWINS)]
    on_bytes, beside = [tallied(name) for name in STORED], [tallied(name, WITH_RUST) for name in KINDS]
    full = collections.Counter(names + on_bytes + beside)
    for group, sides in ((names, (False, False)), (on_bytes, (True, False)), (beside, (False, True))):
        for name in group:
            lacking = full - collections.Counter([name])
            if characters.unmet(lacking, *sides) != [f"no {name}"]:
                yield f"{name} is not missed"
            if group is not names and characters.unmet(lacking, *(not side for side in sides)):
                yield f"{name} is missed where it cannot be met"


# ---- lists by chance

def by_chance(_root):
    """Lists by chance have texts beside both limits; given registers have longer texts on both chains, and are sound."""
    rng, tally, held = random.Random(1), collections.Counter(), [0, 0]
    for _ in range(40):
        tally += tally_of(generate.fresh(rng, 60))
        found = stored(generate.forged(rng, 4, 4, 1))
        held = [n + len(texts) for n, texts in zip(held, found)]
    wanted = of_width(120, "answered", 1, 2, 3, 4) + of_width(121, 33, 1, 2, 3, 4) + ["119 code points, answered"]
    wanted += ["120 code points in 256 bytes, answered", "121 code points in 256 bytes, 33", "more than 120 in 257 bytes, 26", RAISED, UPDATED]
    yield from characters.missing(tally, wanted)
    if not all(held):
        yield f"longer texts on the two chains: {held}"


def twins(_root):
    """Twins by chance come up to both limits on either side; a list beside one with a text that is too long is no twin."""
    rng, tally = random.Random(1), collections.Counter()
    for _ in range(20):
        orders = generate.fresh(rng, 40)
        try:
            checked(Case(orders, list(generate.twin(rng, orders))), Tools(), tally)
        except Difference as found:
            yield f"{found}"
    yield from characters.missing(tally, TWINS)
    try:
        Twins([FRESH, step(1, text=b"x" * 120)], [FRESH, step(1, text=LONG)], print, print)
        yield "a text that is too long passes for a twin's"
    except ValueError:
        pass


def texts_within(_root):
    """Texts that are to be within a limit are, and reach it."""
    rng = random.Random(1)
    for most in (120, 256):
        found = [generate.text_within(rng, most) for _ in range(400)]
        longest = max(len(text.decode()) for text in found), max(map(len, found))
        if longest != (most, 256) or any(map(is_longer, found)) != (most > 120):
            yield f"{most}: {longest}"


CHECKS = {
    "texts: kinds of calls": met,
    "texts: kinds of calls beside the Rust": by_rust,
    "texts: lists of every run": lists_met,
    "texts: what a run must meet": unmet,
    "texts: lists by chance": by_chance,
    "texts: twins by chance": twins,
    "texts: within a limit": texts_within,
}
