"""How far one wrong severity reaches: M-113 of document 02, over document 01's calls and docs/layout.json, and not from the definition.

Two lists differ only in the legal severity byte of one raise. After every call their active lengths are equal, and so is the active count
of each severity but the two entered ones; of each of these the list that has it may count one alarm more. Operations 1 to 4, 7, 11 and 14 return
the same number in both, and answer with the same head of 16 bytes.

What the documents leave open is read as docs/DECISIONS.md, 2.3, reads it: a wrong reading there would be one here too. Policy calls are left
aside only behind the raise and only where they are answered, and from the first of them on nothing is checked; refused calls may stand in
the lists, whatever their first byte, and answer slices may be short; and the lists may begin with any sound register.
"""
import collections
import itertools
from typing import NamedTuple

import imports  # noqa: F401  (finds the reading of calls)
from balance import BY_RUST
from orders import Given, Open, Step
from reading import FIELDS, VALUES, Call, Refused
from records import LAYOUT, WIDTH, link, number
from soundness import sound_chains

RAISE, POLICY, LIFT = b"\1", (b"\5", b"\6", b"\x0d"), b"\x0e"  # operation bytes
SAME_HEADS = (b"\1", b"\2", b"\3", b"\4", b"\7", b"\x0b", LIFT)
HEAD = 16


# ---- two lists

def severity_at(call):
    """The place of a raise's severity in its bytes; None where the call has no legal one."""
    if call[:1] != RAISE:
        return None
    reader, fields = Call(call), FIELDS[RAISE[0]]
    reader.take(1)
    try:
        for field in fields[:fields.index("severity") + 1]:
            reader.value(field)
    except Refused:
        return None
    return reader.at - 1


def is_changeable(order):
    return isinstance(order, Step) and severity_at(order.call) is not None


def raises(orders):
    """The places of the raises whose severity can be entered wrong."""
    return [place for place, order in enumerate(orders) if is_changeable(order)]


def with_severity(order, severity):
    at = severity_at(order.call)
    return order._replace(call=order.call[:at] + bytes([severity]) + order.call[at + 1:])


def mistaken(orders, place, severity):
    """The list with this severity in the raise at a place."""
    return [*orders[:place], with_severity(orders[place], severity), *orders[place + 1:]]


def entered(orders, others):
    """The place of the raise in which two lists differ, and its two severities; (None, ()) for equal lists.

    Lists that differ in anything else are no pair: ValueError.
    """
    places = [place for place, (one, other) in enumerate(zip(orders, others, strict=True)) if one != other]
    if not places:
        return None, ()
    one, other = orders[places[0]], others[places[0]]
    if len(places) > 1 or not (is_changeable(one) and is_changeable(other)):
        raise ValueError(f"the lists differ in more than one severity, from order {places[0]} on")
    severities = tuple(order.call[severity_at(order.call)] for order in (one, other))
    if with_severity(one, severities[1]) != other:
        raise ValueError(f"the raises of order {places[0]} differ in more than the severity")
    return places[0], severities


# ---- the law

class Active(NamedTuple):
    """The active length, and how many active alarms each severity has."""
    length: int
    counts: list


def counts_of(severities):
    found = collections.Counter(severities)
    return [found[severity] for severity in VALUES["severity"]]


def chain_severities(register):
    """The severities along the active chain; no chain is longer than there are records."""
    index = number(register, "active_head")
    for _ in range(len(register) // WIDTH):
        if index == 0:
            return
        yield register[WIDTH * index + LAYOUT["alarm"]["severity"]]
        index = link(register, index)


def in_register(register):
    return Active(number(register, "active_length"), counts_of(chain_severities(register)))


def in_rust(severities):
    """By the severities of the Rust's own active list."""
    return Active(len(severities), counts_of(severities))


def broken(one, other, severities):
    """What breaks the law between the active alarms of two lists, as text; None where nothing does."""
    if one.length != other.length:
        return f"active lengths {one.length} and {other.length}"
    for severity, (n, m) in enumerate(zip(one.counts, other.counts)):
        least, most = (-1 if severity in severities[1:] else 0), (1 if severity in severities[:1] else 0)
        if not least <= n - m <= most:
            return f"{n} and {m} active alarms of severity {severity}; entered were {severities}"
    return None


def head(outcome):
    """What a call returned, and the head of its answer."""
    return outcome.number, bytes(outcome.answer[:min(HEAD, outcome.length)])


def told(order, one, other):
    """What breaks the law between what two calls returned and answered, as text; None where nothing does."""
    if isinstance(order, Step) and order.call[:1] in SAME_HEADS and head(one) != head(other):
        found = [f"number {number}, head {data.hex()}" for number, data in (head(one), head(other))]
        return f"operation {order.call[0]}: {found[0]}, and {found[1]}"
    return None


def active(one, other):
    """The active alarms of two lists after a call: by the register's bytes and, where it follows, by the Rust."""
    found = {"": (in_register(one.register), in_register(other.register))}
    if one.rust is not None:
        found[BY_RUST] = in_rust(one.rust), in_rust(other.rust)
    return found


# ---- what is met behind the raises of pairs: where nothing differs, the law shows nothing

COMPARED, DIFFER = "calls compared", "counts that differ"
PAIRS, ENDED, ON_GIVEN, REFUSED_POLICY = "pairs", "pairs ended by a policy call", "pairs on given registers", "refused policy calls"
LIFTED = "lifts of an alarm"
ANSWERED = {1: "raises answered Raised", 2: "raises answered Updated"}
DIFFERENCES = {
    "histories of two lengths": lambda one, other: number(one.register, "history_length") != number(other.register, "history_length"),
    "answers of two lengths": lambda one, other: one.number == other.number == 0 and one.length != other.length,
    "calls refused in one list alone": lambda one, other: one.number != other.number,
    "answer slices too short in both": lambda one, other: one.number == other.number == 30,
}
NAMES = [PAIRS, COMPARED, DIFFER, ENDED, ON_GIVEN, REFUSED_POLICY, LIFTED, *ANSWERED.values(), *DIFFERENCES]


def tallied(name):
    return f"one severity: {name}"


def unmet(tally, by_rust):
    """What a run must meet and did not."""
    names = NAMES + ([COMPARED + BY_RUST, DIFFER + BY_RUST] if by_rust else [])
    return [f"no {name}" for name in names if not tally[tallied(name)]]


def is_policy(order):
    return isinstance(order, Step) and order.call[:1] in POLICY


def lifts(order, outcome):
    """Whether an order lifts an alarm's suppression (M-105)."""
    return isinstance(order, Step) and order.call[:1] == LIFT and outcome.number == 0 and any(outcome.answer[8:16])


class Reach:
    """The law on two lists, order by order from equal registers; a tally has what is met behind the raises of all pairs.

    It begins where a register is opened or given. One that is not sound has no law, such as a slice whose opening was refused.
    """

    def __init__(self, orders, others, tally):
        self.place, self.severities = entered(orders, others)
        self.places, self.tally = itertools.count(), tally
        self.holds = self.behind = self.given = False

    def count(self, *names):
        self.tally.update(map(tallied, names))

    def fault(self, order, one, other):
        """What breaks the law after an order, as text; None where nothing does."""
        if isinstance(order, (Open, Given)):
            self.behind, self.given, self.holds = False, isinstance(order, Given), sound_chains(one.register) is not None
        if next(self.places) == self.place and self.holds:
            self.enter(one)
        if self.behind and is_policy(order) and 0 in (one.number, other.number):
            self.leave()
        return self.compare(order, one, other) if self.holds else None

    def enter(self, outcome):
        """The lists differ from here on."""
        self.behind = True
        self.count(PAIRS, *[ON_GIVEN] * self.given)
        if outcome.number == 0 and outcome.answer[0] in ANSWERED:
            self.count(ANSWERED[outcome.answer[0]])

    def leave(self):
        """Nothing is said from here on, until there is a new register."""
        self.holds = self.behind = False
        self.count(ENDED)

    def compare(self, order, one, other):
        sides = active(one, other)
        if self.behind:
            self.meet(order, one, other, sides)
        faults = [(by, broken(*both, self.severities)) for by, both in sides.items()] + [("", told(order, one, other))]
        return next((f"one severity{by}: {fault}" for by, fault in faults if fault), None)

    def meet(self, order, one, other, sides):
        """Counts what a call behind the raise meets."""
        found = [name for name, differ in DIFFERENCES.items() if differ(one, other)] + [REFUSED_POLICY] * is_policy(order)
        found += [LIFTED] * lifts(order, one)
        found += [COMPARED + by for by in sides] + [DIFFER + by for by, (here, there) in sides.items() if here.counts != there.counts]
        self.count(*found)
