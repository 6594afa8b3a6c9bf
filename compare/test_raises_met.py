"""Whether raises are followed by the Rust's answers as compare/raises.py says, whether wrong ones are noticed beside the Rust, and what a run
must meet of them (M-100). compare/test_differential.py runs these checks, and tries the same wrong ways to count in the register's place."""
import collections
import json
import shutil
from unittest import mock

import always
import differential
import generate
import raises
import test_raises
import test_reach
from differential import Case, Difference, Rust, Tools, checked, modelled
from orders import Given
from raises import BY_ANSWERS, KINDS, ON_BYTES, Answers, tallied
from records import LAYOUT, MOST_RAISES, RAISES_WIDTH
from test_balance import SUMMARY, cleared, step
from test_reach import raised
from wrong_raises import WRONG

ONE = generate.opened((1, 4, 1))  # room for one alarm
TWO = generate.opened((2, 4, 1))
R, RB = raised(b"a", 3), raised(b"b", 3)
ACKNOWLEDGE, SUPPRESS, CLEAR, EXPIRE = step(3), step(4), cleared(b"a"), step(7, time=1)


def some_list():
    """Every way in which a list from a fresh register counts, and does not count."""
    return [ONE, R, R, R, RB, cleared(b"b"), step(3, authorised=0), SUMMARY, ACKNOWLEDGE, R, SUPPRESS, R, CLEAR, R, R, EXPIRE, R]


def holding(*counts):
    return Given(bytes(test_raises.holding(*counts).register))


def given_list():
    """Raises on registers that hold counts of all kinds, and one with two alarms of one key."""
    counts = (0, 65535, MOST_RAISES - 1, MOST_RAISES)
    return [order for count in counts for order in (holding(count), R, R)] + [Given(bytes(test_raises.of_one_key(5, 5).register)), R]


# ---- by answers: made-up lines of the oracle

def line(code, key, active, history, number=0):
    """What is read of a line: keys of active alarms; of entries, the key and a word that tells them apart."""
    entries = [{"key": entry[0], "word": entry} for entry in history]
    return {"code": code, "number": number, "alarm": {"key": key}, "state": {"active": [{"key": key} for key in active], "history": entries}}


# operation and line; then raises by key, and along history
FOLLOWED = [
    (1, line(1, "a", "a", ["a0"]), {"a": 1}, [1]),
    (1, line(2, "a", "a", ["a0", "a1"]), {"a": 2}, [1, 2]),
    (1, line(2, "a", "a", ["a0", "a1"]), {"a": 3}, [1, 3]),  # overwritten by an entry that looks the same
    (1, line(5, "b", "a", ["a0", "a1"]), {"a": 3}, [1, 3]),
    (2, line(4, "b", "a", ["a0", "a1"]), {"a": 3}, [1, 3]),
    (3, line(7, "a", "a", ["a0", "a1", "a2"]), {"a": 3}, [1, 3, 3]),
    (1, line(2, "a", "a", ["a0", "a1", "a2+"]), {"a": 4}, [1, 3, 4]),  # overwritten
    (1, line(1, "b", "ab", ["a1", "a2+", "b0"]), {"a": 4, "b": 1}, [3, 4, 1]),  # the oldest goes
    (11, line(11, "b", "ba", ["a1", "a2+", "b0"], 2), {"a": 4, "b": 1}, [3, 4, 1]),
    (7, line(11, "", "ab", ["a1", "a2+", "b0"], 0), {"a": 4, "b": 1}, [3, 4, 1]),
    (7, line(11, "", "", ["b0", "b5", "a5"], 2), {}, [1, 1, 4]),  # in the Rust's own order
    (1, line(1, "a", "a", ["b5", "a5", "a0"]), {"a": 1}, [1, 4, 1]),
    (2, line(3, "a", "", ["a5", "a0", "a4"]), {}, [4, 1, 1]),
    (1, line(1, "c", "c", ["a0", "a4", "c0"]), {"c": 1}, [1, 1, 1]),
    (1, line(1, "d", "cd", ["a4", "c0", "d0"]), {"c": 1, "d": 1}, [1, 1, 1]),
    (1, line(1, "e", "cde", ["c0", "d0", "e0"]), {"c": 1, "d": 1, "e": 1}, [1, 1, 1]),
    (1, line(1, "f", "cdef", ["d0", "e0", "f0"]), {"c": 1, "d": 1, "e": 1, "f": 1}, [1, 1, 1]),
    (1, line(2, "f", "cdef", ["e0", "f0", "f1"]), {"c": 1, "d": 1, "e": 1, "f": 2}, [1, 1, 2]),
    (7, line(11, "", "", ["e5", "f5", "c5"], 4), {}, [1, 2, 1]),  # more than history holds
]


def followed(_root):
    answers = Answers()
    for place, (op, said, active, history) in enumerate(FOLLOWED):
        answers.follow(op, said)
        if (answers.active, answers.history) != (active, history):
            yield f"line {place}: {answers.active} and {answers.history}, not {active} and {history}"


# ---- wrong raises beside the Rust

def spoken(orders):
    """The oracle's lines of a list, by the model."""
    return test_reach.spoken(None, orders).decode().splitlines()


def rust_fault(orders, lines, outcomes):
    """Place and text of what is found first of outcomes beside these lines of the oracle; None where nothing is."""
    rust = Rust(shutil.which("true"), orders, collections.Counter())
    rust.lines = iter(lines)
    found = map(rust.difference, orders, outcomes)
    return next(((place, text) for place, text in enumerate(found) if text), None)


def faultless(_root):
    for orders in (some_list(), [TWO, R, RB, RB, R, EXPIRE, R, RB, R, EXPIRE]):
        found = rust_fault(orders, spoken(orders), modelled(orders))
        if found:
            yield f"{found}"


def noticed(name):
    """By the raises alone: nothing else that is compared with the Rust shows them, but for entries that are one too many."""
    def check(_root):
        orders, lines = some_list(), spoken(some_list())
        with WRONG[name]():
            found = rust_fault(orders, lines, modelled(orders))
        wanted = ("history: ",) if name == "part of sameness" else ("raises ", "answered raises ")
        if not (found and found[1].startswith(wanted)):
            yield f"{found}"
    return check


def answered(_root):
    """Raises of an answer alone are wrong."""
    def outcomes(orders):
        for outcome in modelled(orders):
            if outcome.answer[:1] == bytes([raises.CODE_UPDATED]):
                outcome.answer[16 + LAYOUT["alarm"]["raises"] + RAISES_WIDTH - 1] ^= 4
            yield outcome
    orders = [TWO, R, R]
    found = rust_fault(orders, spoken(orders), outcomes(orders))
    if found != (2, "answered raises 6, by the Rust's answers 2"):
        yield f"{found}"


def own_answers(_root):
    """The count goes by the oracle's lines: one that says Updated for another alarm is one raise more of that one."""
    orders = [TWO, R, RB, R]
    lines = spoken(orders)
    said = json.loads(lines[3])
    said["alarm"]["key"] = json.loads(lines[2])["alarm"]["key"]
    answers = Answers()
    for order, text in zip(orders[1:], [*lines[1:3], json.dumps(said)]):
        answers.follow(order.call[0], json.loads(text))
    if sorted(answers.active.values()) != [1, 2] or answers.active[said["alarm"]["key"]] != 2:
        yield f"{answers.active}"


# ---- what is met

# orders, with the kinds of the last call
MET = [
    ([TWO, R], ["raised, with 1"]),
    ([TWO, R, R], ["updated in between"]),
    ([TWO, R, R, R], ["updated in between", "an entry overwritten by one with another count"]),
    ([TWO, R, ACKNOWLEDGE, R], ["updated in between", "updated while acknowledged", "an entry overwritten by one with another count"]),
    ([TWO, R, SUPPRESS, R], ["updated in between", "updated while suppressed", "an entry overwritten by one with another count"]),
    ([ONE, R, RB], ["not counted at the active limit"]),
    ([TWO, R, step(1, object=(6, b"b"))], ["not counted where an id is active"]),
    ([TWO, R, step(1, 1551)], []),
    ([TWO, R, R, SUMMARY], []),
    ([TWO, R, ACKNOWLEDGE], []),
    ([TWO, R, R, ACKNOWLEDGE], ["acknowledged with more than 1"]),
    ([TWO, R, R, step(5)], ["acknowledged with more than 1"]),
    ([TWO, R, R, SUPPRESS], ["suppressed with more than 1"]),
    ([TWO, R, R, step(13)], ["suppressed with more than 1"]),
    ([TWO, R, R, step(13), step(14, time=0)], []),
    ([TWO, R, R, step(13), step(14, time=1)], ["lifted with more than 1"]),
    ([TWO, R, step(13), step(14, time=1)], []),
    ([TWO, R, step(13), step(14, time=1), R], ["updated in between", "an entry overwritten by one with another count"]),
    ([TWO, R, CLEAR], []),
    ([TWO, R, R, CLEAR], ["cleared with more than 1"]),
    ([TWO, R, R, cleared(b"b")], []),
    ([TWO, R, EXPIRE], []),
    ([TWO, R, R, EXPIRE], ["expired with more than 1"]),
    ([TWO, R, R, step(7, time=0)], []),
    ([generate.opened((1, 1, 1)), R, R], ["updated in between"]),  # the entry goes, and its record is taken anew
    ([holding(0), R], ["updated from 0 to 1"]),
    ([holding(MOST_RAISES - 2), R], ["updated in between"]),
    ([holding(MOST_RAISES - 1), R], ["updated to the largest number"]),
    ([holding(MOST_RAISES), R], ["held at the largest number"]),
    ([holding(0), ACKNOWLEDGE], []),
]


def tally_of(orders, tools=Tools()):
    tally = collections.Counter()
    try:
        with mock.patch.object(differential, "ran", test_reach.spoken):
            checked(Case(orders), tools, tally)
    except Difference as found:
        raise ValueError(found) from None
    return tally


def met(_root):
    for orders, wanted in MET:
        found = tally_of(orders) - tally_of(orders[:-1])
        if {name: n for name, n in found.items() if name.startswith("raises: ")} != {tallied(name): 1 for name in wanted}:
            yield f"{[order.call.hex() for order in orders[1:]]}: {dict(found)}, not {wanted}"


def by_answers(_root):
    """Raises of more than one beside the Rust's answers: after each call, those of all active alarms and all entries."""
    found = tally_of([TWO, R, R, RB, R, SUMMARY], Tools(oracle="oracle"))
    counts = [found[tallied(name)] for name in BY_ANSWERS]
    if counts != [4, 6]:
        yield f"{counts}"


def lists_met(_root):
    """The lists that every run with the register has meet what needs a given register."""
    total = sum(map(tally_of, always.held_raises()), collections.Counter())
    yield from (f"no {name}" for name in ON_BYTES if not total[tallied(name)])


def unmet(_root):
    """A run must meet every kind; those of given registers and of the Rust only where these are there."""
    full = collections.Counter({tallied(name): 1 for name in (*KINDS, *ON_BYTES, *BY_ANSWERS)})
    for names, on_bytes, by_rust in ((KINDS, False, False), (ON_BYTES, True, False), (BY_ANSWERS, False, True)):
        for name in names:
            lacking = full - collections.Counter([tallied(name)])
            if raises.unmet(lacking, on_bytes, by_rust) != [f"no {tallied(name)}"]:
                yield f"{name} is not missed"
            if names is not KINDS and raises.unmet(lacking, not on_bytes, not by_rust):
                yield f"{name} is missed where it cannot be met"


CHECKS = {
    "raises: by answers": followed,
    "raises: no fault beside the Rust": faultless,
    **{f"raises: wrong ones are noticed beside the Rust: {name}": noticed(name) for name in WRONG},
    "raises: wrong ones in an answer": answered,
    "raises: the Rust's own answers": own_answers,
    "raises: kinds of calls": met,
    "raises: what is compared with the Rust's answers": by_answers,
    "raises: lists of every run": lists_met,
    "raises: what a run must meet": unmet,
}
