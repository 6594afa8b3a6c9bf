"""What a run must meet of suppressions until a time (M-105), whether lists by chance hold them, which lists the Rust is given, and lists that show
wrong ways in the register's place. compare/test_differential.py runs these checks."""
import collections
import random

import always
import always_timed
import ends
import generate
from always_timed import B, lift, until
from calls import call
from differential import Case, Tools, checked, for_the_rust
from ends import FROM_OPENING, LIFTED, ON_BYTES, tallied
from orders import Given, Step
from test_balance import FRESH, step
from test_raises_met import tally_of
from timed import EARLIEST, LATEST, is_timed

TWO = generate.opened((2, 4, 2))
R, RB = step(1), step(1, **B)
ACKNOWLEDGE, SUPPRESS, CLEAR, EXPIRE = step(3), step(4), step(2), step(7, time=1)


def timed(end, room=1552, **values):
    return Step(until(end, **values), room)


def lifted(cutoff, room=1552):
    return Step(lift(cutoff), room)


T1, T2, LIFT1, LIFT2 = timed(1), timed(2), lifted(1), lifted(2)


# ---- lists that show wrong ways in the register's place

def some_list():
    """Every way in which a list from a fresh register sets, keeps, removes and lifts ends: registers of two sizes, one list behind the other."""
    parts = [
        [R, T1, SUPPRESS, LIFT1], [R, T1, ACKNOWLEDGE, LIFT1], [R, T1, step(5)], [R, T1, step(6), LIFT1], [R, T1, CLEAR, LIFT1], [R, T2, EXPIRE],
        [R, T1, step(7, time=2)], [R, T1, step(1, time=5), LIFT1], [R, T1, step(1, severity=5)], [R, T1, T2], [R, T2, T1], [R, SUPPRESS, T1],
        [R, T1, timed(2, authorised=0)], [R, T1, step(3, authorised=0)], [step(1, severity=5), T1], [R, timed(1, authorised=0), step(12, n=1)],
        [R, T1, step(12, n=1)], [R, timed(0)], [R, timed(0, time=-1)], [R, timed(-1)], [R, timed(EARLIEST, time=LATEST)],
        [R, timed(0, room=1551)], [R, Step(until(0) + b"\0", 1552)], [R, timed(0, denial=b"\xff")], [R, timed(0, id=b"x")],
        [step(1, time=2), T1, LIFT1], [timed(1, 1551, id=b"x")], [lifted(1, 1551)], [R, T1, LIFT2], [R, T2, LIFT1], [R, SUPPRESS, lifted(9)],
        [R, timed(-2, time=-3), lifted(0)], [R, T1, step(1, time=5), LIFT2], [R, RB, T2, timed(1, id=b"b"), LIFT2], [R, T2, lifted(0)],
    ]
    return [order for part in parts for order in (TWO, *part)] + [generate.opened((2, 4, 1)), R, T1, T2, step(6)]


def holding(alarm, entry):
    return always.holding(alarm, entry)


def given_list():
    """Registers that hold ends in states that may have none, wrong bytes of ends, and alarms that are lifted into one entry."""
    timed_ = [dict(state=state, end=1) for state in range(6)]
    orders = [order for fields in timed_ for start in (holding(fields, {}), holding({}, fields)) for order in (start, step(10))]
    for place, value in ((1455, 2), (1463, 1)):
        for index in (1, 2):
            register = bytearray(holding(dict(state=3), dict(state=3)).register)
            register[1536 * index + place] = value
            orders += [Given(bytes(register)), step(10)]
    return orders + [holding(dict(state=3, end=1), dict(state=1)), LIFT1, always.doubled(dict(state=3, end=1), dict(state=3, end=2)), LIFT2]


# ---- what is met

RAISED, NONE, ONE = "of a raised alarm", LIFTED.format("none, no end"), LIFTED.format("one")
ONE_LATER, FULL = "an end one after the call's time, answered", "the audit chain is full"
AT_CUTOFF, IN_HISTORY = LIFTED.format("an end at the cutoff"), LIFTED.format("an end that has come left in history")
OTHER_END = "an entry overwritten by one with another end"
# orders, with the kinds of the last one
MET = [
    ([TWO, R], []),
    ([TWO, R, T1], [RAISED, ONE_LATER]),
    ([TWO, R, R, T2], ["of an updated alarm"]),
    ([TWO, R, ACKNOWLEDGE, T2], ["of an acknowledged alarm"]),
    ([TWO, R, SUPPRESS, T2], ["of a suppressed alarm without an end", "an entry without an end overwritten by one with it"]),
    ([TWO, R, T2, T1], [ONE_LATER, "an earlier end in the place of an end", OTHER_END]),
    ([TWO, R, T1, T1], [ONE_LATER, "the same end again"]),
    ([TWO, R, T1, T2], ["a later end in the place of an end", OTHER_END]),
    ([TWO, step(1, time=2), T2], [RAISED, "an end not after raised_at"]),
    ([TWO, step(1, severity=5), T2], ["stopped by the critical gate"]),
    ([TWO, R, timed(2, authorised=0)], ["not authorised"]),
    ([TWO, R, T2, timed(2, authorised=0)], ["not authorised", "an end left by a policy call that is not authorised"]),
    ([TWO, R, step(5), step(5), T2], [FULL]),
    ([TWO, R, T2, step(12), T2, T2], [FULL, "an end left where the audit chain is full"]),
    ([TWO, R, T2, step(5, authorised=0), step(5)], ["an end left where the audit chain is full"]),
    ([TWO, T2], ["an unknown id"]),
    ([TWO, timed(0, time=-1)], ["an unknown id", ONE_LATER, "a later end by the signs, answered"]),
    ([TWO, R, timed(0)], ["34, the end is the call's time"]),
    ([TWO, R, timed(-1)], ["34, the end is one before the call's time", "34 by the signs"]),
    ([TWO, R, timed(0, time=LATEST)], ["34 at the latest time"]),
    ([TWO, R, timed(3, 1551, time=9)], ["34 before 30"]),
    ([TWO, R, Step(until(3, time=9) + b"\0", 1552)], ["bytes left over before 34"]),
    ([TWO, R, Step(until(3, time=9)[:-1], 1552)], []),
    ([TWO, R, timed(3, time=9, denial=b"\xff")], ["another field's fault before 34"]),
    ([TWO, R, timed(3, denial=b"\xff")], []),
    ([TWO, R, timed(3, 1551)], ["30, the end is later"]),
    ([TWO, R, T2, ACKNOWLEDGE], ["an end removed by an acknowledge"]),
    ([TWO, R, T2, SUPPRESS], ["an end removed by a plain suppress", "an entry with an end overwritten by one without"]),
    ([TWO, R, T2, step(5)], ["an end removed by an acknowledge with policy"]),
    ([TWO, R, T2, step(6)], ["an end removed by an untimed suppress with policy", "an entry with an end overwritten by one without"]),
    ([TWO, R, T2, step(3, authorised=0)], ["an end left by a plain call that is not authorised"]),
    ([TWO, R, T2, CLEAR], ["cleared with an end"]),
    ([TWO, R, SUPPRESS, LIFT1, CLEAR], []),
    ([TWO, R, T2, EXPIRE], ["expired before its end"]),
    ([TWO, R, T1, EXPIRE], ["expired after its end"]),
    ([TWO, R, T1, step(7, time=0)], []),
    ([TWO, R, T2, R], ["raised before its end"]),
    ([TWO, R, T2, step(1, time=2)], ["raised at or after its end"]),
    ([TWO, R, T2, step(1, severity=5)], ["raised before its end", "raised with another severity"]),
    ([TWO, R, T2, step(8)], ["an end listed"]),
    ([TWO, R, T2, CLEAR, step(9, 9999)], ["an end listed from history"]),
    ([TWO, R, LIFT1], [NONE]),
    ([TWO, R, T1, lifted(-5)], [LIFTED.format("none, ends are later")]),
    ([TWO, R, T2, LIFT1], [LIFTED.format("none, ends are later"), LIFTED.format("an end one after the cutoff")]),
    ([TWO, R, T1, LIFT1], [ONE, AT_CUTOFF, IN_HISTORY]),
    ([TWO, R, T1, LIFT2], [ONE, LIFTED.format("an end one before the cutoff"), IN_HISTORY]),
    ([TWO, R, T1, lifted(9)], [ONE, IN_HISTORY]),
    ([TWO, R, SUPPRESS, RB, LIFT1], [NONE, LIFTED.format("an alarm without an end left")]),
    ([TWO, R, T1, RB, timed(9, id=b"b"), lifted(4)], [ONE, LIFTED.format("some lifted, and one with a later end left"), IN_HISTORY]),
    ([TWO, R, timed(3), RB, timed(2, id=b"b"), lifted(9)],
     [LIFTED.format("several"), LIFTED.format("another order than that of the ends"), IN_HISTORY]),
    ([TWO, step(1, time=2), T1, LIFT1], [ONE, AT_CUTOFF, LIFTED.format("raised_at after the cutoff"), IN_HISTORY,
                                         LIFTED.format("updated_at after its end")]),
    ([TWO, R, T1, step(1, time=5), LIFT1], [ONE, AT_CUTOFF, LIFTED.format("updated_at goes back"), IN_HISTORY,
                                            LIFTED.format("updated_at after its end")]),
    ([TWO, R, T1, CLEAR, lifted(9)], [NONE, IN_HISTORY]),
    ([TWO, lifted(1, 1551)], [LIFTED.format("30")]),
    ([holding(dict(state=3, end=EARLIEST), {}), lifted(EARLIEST)], [ONE, AT_CUTOFF, LIFTED.format("the earliest end"),
                                                                   LIFTED.format("raised_at after the cutoff"),
                                                                   LIFTED.format("updated_at after its end")]),
    ([holding(dict(state=3, end=LATEST), {}), lifted(LATEST)], [ONE, AT_CUTOFF, LIFTED.format("the latest end")]),
    ([holding(dict(state=3, end=1), dict(state=1)), lifted(9)], [ONE, LIFTED.format("an alarm into the newest entry")]),
    ([always.doubled(dict(state=3, end=1), dict(state=3, end=1)), lifted(9)], [LIFTED.format("several"), LIFTED.format("two alarms into one entry")]),
    ([holding(dict(state=2, end=1), {}), step(10)], ["22 for an end in state 2 on the active chain"]),
    ([holding({}, dict(state=5, end=1)), step(10)], ["22 for an end in state 5 on the history chain"]),
    ([holding(dict(state=4, end=1), {}), step(10)], []),
    ([holding(dict(state=3, end=1), {}), step(10)], []),
]


def ends_of(tally):
    return {name: n for name, n in tally.items() if name.startswith("ends: ")}


def met(_root):
    for orders, wanted in MET:
        found = collections.Counter(ends_of(tally_of(orders)))
        found -= collections.Counter(ends_of(tally_of(orders[:-1])))
        if found != {tallied(name): 1 for name in wanted}:
            yield f"{[order.call.hex() for order in orders[1:]]}: {dict(found)}, not {wanted}"


def lists_met(_root):
    """The lists that every run has meet every kind, and those on given registers what needs these."""
    for lists, names in ((always_timed.ends, FROM_OPENING), (always_timed.held_ends, ON_BYTES)):
        yield from ends.missing(sum(map(tally_of, lists()), collections.Counter()), names)


def unmet(_root):
    """A run must meet every kind; those of given registers only where these are there."""
    full = collections.Counter(map(tallied, FROM_OPENING + ON_BYTES))
    for name in FROM_OPENING + ON_BYTES:
        lacking = full - collections.Counter([tallied(name)])
        if ends.unmet(lacking, True) != [f"no {tallied(name)}"]:
            yield f"{name} is not missed"
        if bool(ends.unmet(lacking, False)) != (name in FROM_OPENING):
            yield f"{name} is missed or not where no register is given"


# ---- lists by chance, and the Rust

# what chance seldom comes to, and lists of every run have
SELDOM = ["the same end again", "34 before 30", "raised with another severity", *map(LIFTED.format, ("another order than that of the ends", "30"))]


def by_chance(_root):
    """Timed lists by chance meet nearly every kind, and given registers have ends on both chains."""
    rng, tally, chains = random.Random(1), collections.Counter(), [0, 0]
    for _ in range(60):
        checked(Case(generate.fresh(rng, 100, timed=True)), Tools(), tally)
        found = ends.held(generate.forged(rng, 4, 4, 1))
        for place, alarms in enumerate((found.active.values(), [alarm for _, alarm in found.history])):
            chains[place] += sum(alarm["end"] is not None for alarm in alarms)
    yield from ends.missing(tally, [name for name in FROM_OPENING if name not in SELDOM])
    if not all(chains):
        yield f"ends on the two chains: {chains}"


def for_rust(_root):
    """The Rust is given lists without operations 13 and 14, and no other: neither refused calls of theirs nor damaged ones."""
    for data in (until(1), lift(1), b"\x0d", b"\x0e", until(0), until(1) + b"\0"):
        if for_the_rust([FRESH, R, Step(data, 1552)]) or not for_the_rust([FRESH, R]):
            yield f"{data.hex()} is given to the Rust"
    rng = random.Random(2)
    for _ in range(60):
        if not for_the_rust(generate.fresh(rng, 100)):
            yield "a list by chance without operations 13 and 14 has one"
    for_it = always.every_call, always.short_lists, always.headlines, always.texts
    for lists in (*for_it, always_timed.every_call, always_timed.ends):
        if any(for_the_rust(orders) != (lists in for_it) for orders in lists()):
            yield f"{lists}: not all of them are {'' if lists in for_it else 'not '}for the Rust"
    odd = generate.odd_calls(False), generate.odd_calls(True)
    if [any(map(is_timed, calls)) for calls in odd] != [False, True] or not all(map(is_timed, odd[1])):
        yield "the calls of tests/ are not divided by their operation"
    if sorted(odd[0] + odd[1]) != sorted(generate.odd_calls(False, True)):
        yield "calls of tests/ are lost"


CHECKS = {
    "ends: kinds of calls": met,
    "ends: lists of every run": lists_met,
    "ends: what a run must meet": unmet,
    "ends: lists by chance": by_chance,
    "ends: which lists the Rust is given": for_rust,
}
