"""The texts of raises by their code points (M-104 of document 02): what a run must meet of them.

A text of few letters shows nothing of the limit, nor does one that every way to count takes for too long. Code points are counted by Python's
decoder here, and by the rows of RFC 3629 in the reading of calls. A raise that is refused with 33 is not given to the Rust: that it is refused,
and what comes before and behind 33, is the oracle's own reading of document 02, with Rust's `chars()`.
"""
from typing import NamedTuple

import imports  # noqa: F401  (finds the reading of calls)
import model
from calls import string
from headline import WITH_RUST
from orders import Given, Open, Step
from reading import FIELDS, Call, Refused
from records import WIDTH, alarm_of, unlinked
from soundness import sound_chains
from timed import (ACKNOWLEDGE, ACKNOWLEDGE_BY_POLICY, ACTIVE, CLEAR, EXPIRE, HISTORY, LIFT, POLICY, RAISE, SUPPRESS, SUPPRESS_BY_POLICY,
                   SUPPRESS_UNTIL)
from twins import ALARM_CODES, ALARM_LISTS

TOO_MANY = 33  # the refusal
MOST, MOST_BYTES = 120, 256


def is_longer(text):
    """Whether a text that is UTF-8 has more code points than a raise's may have."""
    return len(text.decode()) > MOST


# ---- raises

class Raise(NamedTuple):
    """A raise that has no fault before its text: the text, and the characters of it that are UTF-8; the number that it is refused with, or 0; and
    where that is 33, what the call gives with no text."""
    text: bytes
    shown: str
    number: int
    otherwise: str = ""

    def is_utf8(self):
        return self.shown.encode() == self.text

    def gives(self, number, points):
        return self.is_utf8() and self.number == number and len(self.shown) in points

    def units(self):
        """The units of UTF-16."""
        return len(self.shown.encode("utf-16-le")) // 2

    def letters(self):
        """What is left without combining marks, of which lists have U+0301 alone."""
        return len(self.shown.replace("\u0301", ""))


def sent(order, outcome):
    """None where a field before the text has a fault, or where the call ends before its text does."""
    call = Call(order.call)
    call.raised = call.number(1) == RAISE
    try:
        for field in FIELDS[RAISE][:FIELDS[RAISE].index("text")]:
            call.value(field)
        start = call.at
        text = call.take(call.number(4))
    except Refused:
        return None
    found = Raise(text, text.decode(errors="ignore"), outcome.number)
    if outcome.number != TOO_MANY:
        return found
    bare = order.call[:start] + string(b"") + order.call[call.at:]
    return found._replace(otherwise=given(order._replace(call=bare), outcome.register))


def given(order, register):
    """What an order gives: the number of its refusal, with the field if it has one, or the code of its answer."""
    try:
        Call(order.call).read()
    except Refused as refusal:
        number, field = refusal.args
        return f"{number} at {field}"
    answer = bytearray(order.room)
    number, _ = model.step(bytearray(register), order.call, answer)
    return f"{number}" if number else f"code {answer[0]}"


def with_width(number, points, width):
    """A letter of so many bytes is among them."""
    return lambda call: call.gives(number, [points]) and any(len(c.encode()) == width for c in call.shown)


def refused_before(otherwise):
    return lambda call: call.otherwise == otherwise


RAISES = {
    **{f"120 code points, one of width {width}, answered": with_width(0, MOST, width) for width in (1, 2, 3, 4)},
    **{f"121 code points, one of width {width}, 33": with_width(TOO_MANY, MOST + 1, width) for width in (1, 2, 3, 4)},
    "119 code points, answered": lambda call: call.gives(0, [MOST - 1]),
    "120 code points in 256 bytes, answered": lambda call: call.gives(0, [MOST]) and len(call.text) == MOST_BYTES,
    "121 code points in 256 bytes, 33": lambda call: call.gives(TOO_MANY, [MOST + 1]) and len(call.text) == MOST_BYTES,
    "256 code points, 33": lambda call: call.gives(TOO_MANY, [MOST_BYTES]),
    "256 bytes of fewer code points, answered": lambda call: call.gives(0, range(MOST)) and len(call.text) == MOST_BYTES,
    "more than 120 units of UTF-16, answered": lambda call: call.gives(0, range(MOST + 1)) and call.units() > MOST,
    "no more than 120 without marks, 33": lambda call: call.number == TOO_MANY and call.letters() <= MOST,
    "U+0000 among 120, answered": lambda call: call.gives(0, [MOST]) and "\0" in call.shown[:-1],
    "U+0000 before the last of 121, 33": lambda call: call.gives(TOO_MANY, [MOST + 1]) and "\0" in call.shown[:-1],
    "more than 120 and no UTF-8, 27": lambda call: call.number == 27 and len(call.shown) > MOST,
    "more than 120 in 257 bytes, 26": lambda call: call.number == 26 and len(call.text) == MOST_BYTES + 1,
    "33 where no text is answered Raised": refused_before("code 1"),
    "33 where no text is answered Updated": refused_before("code 2"),
    "33 at the active limit": refused_before("code 5"),
    "33 before 31": refused_before("31"),
    "33 before 30": refused_before("30"),
    "33 before bytes left over": refused_before("24 at left over"),
    "33 before an end within the details": refused_before("24 at details?"),
    "33 before a wrong byte of the details": refused_before("25 at details?"),
    "33 before details that are too long": refused_before("26 at details?"),
}
# fields beside the text that may have more than 120 code points, with their operations
OTHERS = {"region": (RAISE, CLEAR), "reason": POLICY, "denial": POLICY}
LONGER = "a {} of more than 120 code points, answered"
KINDS = [*RAISES, *map(LONGER.format, OTHERS)]


def call_kinds(order, outcome):
    """The kinds of a call by its strings."""
    call = sent(order, outcome) if order.call[:1] == bytes([RAISE]) else None
    if call:
        yield from (name for name, is_of in RAISES.items() if is_of(call))
    if outcome.number == 0:
        op, values = Call(order.call).read()
        yield from (LONGER.format(name) for name, ops in OTHERS.items() if op in ops and values[name] and is_longer(values[name]))


# ---- longer texts that a register holds: from before the limit, so that no list from a fresh register comes to them

class StoredCall(NamedTuple):
    """A call on a register with such texts: its operation and its refusal's number; the texts on the active and the history chain before and
    after it; those that are answered; whether an alarm is lifted."""
    op: int
    number: int
    before: tuple
    after: tuple
    answered: list
    lifted: bool

    def leaves(self):
        """Whether the active chain has lost one."""
        return len(self.before[0]) > len(self.after[0])


def answers(op):
    return lambda call: call.op == op and call.answered


STORED = {
    "a longer one is acknowledged": answers(ACKNOWLEDGE),
    "a longer one is suppressed": answers(SUPPRESS),
    "a longer one is acknowledged by policy": answers(ACKNOWLEDGE_BY_POLICY),
    "a longer one is suppressed by policy": answers(SUPPRESS_BY_POLICY),
    "a longer one is suppressed until a time": answers(SUPPRESS_UNTIL),
    "a longer one is lifted": lambda call: call.op == LIFT and call.lifted and call.before[0],
    "a longer one is cleared": lambda call: call.op == CLEAR and call.leaves(),
    "a longer one is expired": lambda call: call.op == EXPIRE and call.leaves(),
    "a longer one is replaced by an answer Updated": lambda call: call.op == RAISE and call.leaves(),
    "a longer one is left by a raise that is refused with 33": lambda call: call.number == TOO_MANY and call.before[0],
    "a longer one is listed": answers(ACTIVE),
    "a longer one is listed from history": answers(HISTORY),
    "a longer one is sound on the active chain": lambda call: call.number == 0 and call.before[0],
    "a longer one is sound on the history chain": lambda call: call.number == 0 and call.before[1],
}


def stored(register):
    """The longer texts on the active and on the history chain; none where the register is not sound."""
    data, chains = bytes(register), sound_chains(register)
    texts = [[alarm_of(unlinked(data, index))["text"] for index in chain] for chain in chains[:2]] if chains else [[], []]
    return tuple([text for text in chain if is_longer(text)] for chain in texts)


def answered(op, outcome):
    """The longer texts of an answer."""
    if outcome.number or (op not in ALARM_LISTS and outcome.answer[0] not in ALARM_CODES):
        return []
    texts = [alarm_of(bytes(outcome.answer[at:at + WIDTH]))["text"] for at in range(16, outcome.length, WIDTH)]
    return [text for text in texts if is_longer(text)]


# ---- twins

TWINS = {
    "twins with 120 code points in the first list alone": lambda one, other: len(one.decode()) == MOST > len(other.decode()),
    "twins with 120 code points in the second list alone": lambda one, other: len(other.decode()) == MOST > len(one.decode()),
    "twins with 256 bytes in the first list alone": lambda one, other: len(one) == MOST_BYTES > len(other),
    "twins with 256 bytes in the second list alone": lambda one, other: len(other) == MOST_BYTES > len(one),
}


def tallied(name, by=""):
    return f"texts{by}: {name}"


def count_twins(tally, one, other):
    """Counts the kinds of two texts that stand at one place of twin lists."""
    tally.update(tallied(name) for name, is_of in TWINS.items() if is_of(one, other))


# ---- what is met

class Met:
    """Counts the kinds of a list's calls; `by_rust`: the Rust makes them too."""

    def __init__(self, tally, by_rust):
        self.tally, self.sides, self.held = tally, ["", WITH_RUST] if by_rust else [""], ([], [])

    def see(self, order, outcome):
        if isinstance(order, (Open, Given)):
            self.held = stored(outcome.register) if isinstance(order, Given) else ([], [])
        elif isinstance(order, Step):
            names = list(call_kinds(order, outcome))
            self.tally.update(tallied(name, by) for name in names for by in self.sides)
            self.follow(order, outcome)

    def follow(self, order, outcome):
        """Counts what happens to longer texts, as long as there are any."""
        if not any(self.held) or outcome.number not in (0, TOO_MANY):
            return
        before, self.held = self.held, stored(outcome.register)
        call = StoredCall(order.call[0], outcome.number, before, self.held, answered(order.call[0], outcome), any(outcome.answer[8:16]))
        self.tally.update(tallied(name) for name, is_of in STORED.items() if is_of(call))


def missing(tally, names, by=""):
    return [f"no {tallied(name, by)}" for name in names if not tally[tallied(name, by)]]


def unmet(tally, on_bytes, by_rust):
    """The kinds that a run must meet and did not; some are met only on given registers."""
    return missing(tally, [*KINDS, *TWINS, *(STORED if on_bytes else [])]) + (missing(tally, KINDS, WITH_RUST) if by_rust else [])
