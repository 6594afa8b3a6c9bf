"""Whether the balance is document 02's (M-111), and whether it notices. compare/test_differential.py runs these checks."""
import collections
import json
import shutil
from unittest import mock

import balance
import differential
import generate
from calls import call
from differential import Case, Rust, Tools, checked, fault_of, modelled
from orders import Counters, Given, Open, Panel, Step
from original import Original, answer_shown
from records import number, put_number


def step(op, room=1552, former=0, **values):
    return Step(call(op, **values), room, former)


def raised(name):
    return step(1, id=name, object=(6, name))


def cleared(name):
    return step(2, object=(6, name))


A, B, C = map(raised, (b"a", b"b", b"c"))
SUMMARY, EXPIRE, EXPIRE_NONE = step(11), step(7, time=1), step(7, time=0)
FRESH = generate.opened((2, 3, 1))
# their answer slices' former bytes read as a code that counts, with a large number
REFUSED = [step(op, 1551, former) for op in (1, 2, 7) for former in (1, 3)] + [Step(A.call + b"\0", 1552, 1), Step(b"", 1552, 3)]


def held():
    """A register that holds one alarm, which EXPIRE leaves, and has room for two more."""
    orders = [generate.opened((3, 3, 1)), step(1, time=100, id=b"g", object=(6, b"g"))]
    return Given(bytes([*modelled(orders)][-1].register))


def figures(orders):
    """Start, raised, active, cleared and expired after a list; None where it has no balance; where one fails, its text."""
    following = balance.RegisterBalance(collections.Counter())
    for order, outcome in zip(orders, modelled(orders)):
        fault = following.fault(order, outcome)
        if fault:
            return fault
    if not following.balance:
        return None
    raised_, cleared_, expired = following.balance.sums
    return following.balance.start, raised_, number(outcome.register, "active_length"), cleared_, expired


# ---- what is counted

# calls on a register with room for two more alarms; then raised, more active than at the start, cleared, expired
SMALLEST = [
    ([], (0, 0, 0, 0)),
    ([A], (1, 1, 0, 0)),
    ([A, A], (1, 1, 0, 0)),
    ([A, B, C], (2, 2, 0, 0)),
    ([cleared(b"a")], (0, 0, 0, 0)),
    ([A, cleared(b"a")], (1, 0, 1, 0)),
    ([A, cleared(b"a"), A, cleared(b"a")], (2, 0, 2, 0)),
    ([A, EXPIRE], (1, 0, 0, 1)),
    ([A, B, EXPIRE], (2, 0, 0, 2)),
    ([A, EXPIRE_NONE], (1, 1, 0, 0)),
    ([A, *REFUSED], (1, 1, 0, 0)),
    ([A, *REFUSED, EXPIRE], (1, 0, 0, 1)),
    ([A, step(1, object=(6, b"b"))], (1, 1, 0, 0)),
    ([A, SUMMARY, step(8), step(9), step(10)], (1, 1, 0, 0)),
    ([A, step(3), step(4), step(5), step(6), step(12, n=1)], (1, 1, 0, 0)),
    ([A, step(13), step(14, time=1)], (1, 1, 0, 0)),
    ([A, step(13), step(14, time=0), EXPIRE], (1, 0, 0, 1)),
    ([A, step(13), step(13, end=0), step(14, 1551, time=1), A, cleared(b"a"), step(14, time=9)], (1, 0, 1, 0)),
]


def smallest(_root):
    """From a fresh register, and from one that holds an alarm."""
    for calls, (raised_, more, cleared_, expired) in SMALLEST:
        for start, first in enumerate((FRESH, held())):
            found, wanted = figures([first, *calls]), (start, raised_, start + more, cleared_, expired)
            if found != wanted:
                yield f"{[order.call.hex() for order in calls]} with {start} active before: {found}, not {wanted}"


def starts(_root):
    """Where a balance starts, and where there is none."""
    unsound = bytearray(held().register)
    put_number(unsound, "active_length", 2)
    for name, orders, wanted in [
        ("its alarm is cleared", [held(), cleared(b"g")], (1, 0, 0, 1, 0)),
        ("its alarm expires", [held(), step(7, time=101)], (1, 0, 0, 0, 1)),
        ("its alarm is updated", [held(), raised(b"g")], (1, 0, 1, 0, 0)),
        ("a second register is given", [FRESH, A, B, held(), A], (1, 1, 2, 0, 0)),
        ("a second register is opened", [held(), A, FRESH, B], (0, 1, 1, 0, 0)),
        ("counters", [FRESH, A, Counters(2**64 - 1, 2**64 - 1), step(5)], (0, 1, 1, 0, 0)),
        ("an opening that is refused", [FRESH, A, Open((0, 1, 1), 1536), A], None),
        ("a register that is not sound", [Given(bytes(unsound)), A], None),
        ("opened after it", [Given(bytes(unsound)), A, FRESH, A], (0, 1, 1, 0, 0)),
    ]:
        if figures(orders) != wanted:
            yield f"{name}: {figures(orders)}, not {wanted}"


def rule(raised_=(1,), cleared_=(3,), expire=(7,)):
    """A way to count, by codes and operations."""
    return lambda op, code, n: (int(code in raised_), int(code in cleared_), n if op in expire else 0)


WRONG_RULES = {
    "Updated counted as Raised": rule(raised_=(1, 2)),
    "code 5 counted as Raised": rule(raised_=(1, 5)),
    "code 4 counted as Cleared": rule(cleared_=(3, 4)),
    "code 5's number counted": rule(expire=(1, 7)),
    "operation 11's number counted": rule(expire=(7, 11)),
    "operation 14's number counted": rule(expire=(7, 14)),
    "Raised not counted": rule(raised_=()),
    "Cleared not counted": rule(cleared_=()),
    "numbers of expire calls not counted": rule(expire=()),
    "expire calls counted, and not their numbers": lambda op, code, n: rule()(op, code, 1),
}


def rules(_root):
    """The smallest lists tell each wrong way to count from the right one."""
    for name, events in ({"the right way": rule()} | WRONG_RULES).items():
        with mock.patch.object(balance, "events", events):
            told = any(isinstance(figures([FRESH, *calls]), str) for calls, _ in SMALLEST)
        if told != (name in WRONG_RULES):
            yield f"{name}: {'does not balance' if told else 'is not noticed'}"


def sums(_root):
    """A tally has the sums over all lists; a run must meet each of them."""
    tally = collections.Counter()
    for orders in ([FRESH, A, EXPIRE, A, B], [held(), A, EXPIRE, FRESH, A, B, EXPIRE]):
        checked(Case(orders), Tools(), tally)
    found = [tally[name] for name in balance.NAMES]
    if found != [6, 0, 4]:
        yield f"sums {found}"
    if balance.unmet(tally, False) != ["no alarms cleared"] or len(balance.unmet(tally, True)) != 4:
        yield f"not met: {balance.unmet(tally, True)}"


def unbounded(_root):
    """Sums are natural numbers: one of 2^64 is not 0."""
    found = balance.Balance(0, collections.Counter())
    for _ in range(2):
        found.count(balance.EXPIRE, 11, 2**63)
    if not found.fault(0):
        yield "2^64 expired is nothing"


# ---- made-up outcomes: a fault takes a call's outcome and the register before it, and gives another outcome

def answer_number(outcome):
    return int.from_bytes(outcome.answer[8:16], "big")


def another_code(op, code, given):
    def fault(order, outcome, _before):
        if order.call[0] == op and outcome.answer[0] == code:
            outcome.answer[0] = given
        return outcome
    return fault


def another_number(given):
    """Expire calls give another number, made of theirs and of the register."""
    def fault(order, outcome, _before):
        if order.call[0] == balance.EXPIRE:
            outcome.answer[8:16] = given(answer_number(outcome), outcome.register).to_bytes(8, "big")
        return outcome
    return fault


def answered_only(op, code):
    """The answer, and the register as it was."""
    def fault(order, outcome, before):
        return outcome._replace(register=before) if order.call[0] == op and outcome.answer[0] == code else outcome
    return fault


def done_and_refused(order, outcome, _before):
    return outcome._replace(number=30, length=0) if order.call[0] == balance.EXPIRE else outcome


FAULTS = {
    "a Raised too many, at the limit": another_code(1, 5, 1),
    "a Raised too many, for Updated": another_code(1, 2, 1),
    "Raised, and nothing stored": answered_only(1, 1),
    "stored, and answered as Updated": another_code(1, 1, 2),
    "Cleared, and none was active": another_code(2, 4, 3),
    "Cleared, and left active": answered_only(2, 3),
    "cleared, and answered as if none was active": another_code(2, 3, 4),
    "an expiry's number one too large": another_number(lambda n, _: n + 1),
    "an expiry's number far too large": another_number(lambda n, _: n + 2**63),
    "an expiry's number one too small": another_number(lambda n, _: max(n, 1) - 1),
    "an expiry's number that is the summary's": another_number(lambda _, register: number(register, "active_length")),
    "expired, and left active": answered_only(7, 11),
}
CALLS = [A, A, B, C, SUMMARY, EXPIRE_NONE, cleared(b"c"), cleared(b"b"), EXPIRE]


def made_up(fault):
    def outcomes(orders):
        before = bytearray()
        for order, outcome in zip(orders, modelled(orders)):
            copied = outcome._replace(answer=bytearray(outcome.answer), register=bytearray(outcome.register))
            yield fault(order, copied, before) if isinstance(order, Step) else copied
            before = bytearray(outcome.register)
    return outcomes


def register_fault(first, fault):
    """What is found of made-up outcomes, where no program is there to compare them with."""
    with mock.patch.object(differential, "modelled", made_up(fault)):
        found = fault_of(Case([first, *CALLS]), Tools())
    return found[1] if found else "nothing"


def printed(order, outcome, made):
    """The oracle's line of an order, with code, number and active alarms of what is made up."""
    if not isinstance(order, Step):
        return "panel" if isinstance(order, Panel) else "opened"
    head = {"code": made.answer[0], "number": answer_number(made), "state": Original().state_shown(made.register)}
    return json.dumps(answer_shown(order.call[0], outcome.answer[:outcome.length]) | head)


def rust_fault(fault):
    """What is found of made-up lines of the oracle, beside the model's true outcomes."""
    orders = [FRESH, *CALLS]
    rust = Rust(shutil.which("true"), orders, collections.Counter())
    rust.lines = iter([printed(*each) for each in zip(orders, modelled(orders), made_up(fault)(orders))])
    return next(filter(None, map(rust.difference, orders, modelled(orders))), "nothing")


def faultless(_root):
    for found in (register_fault(FRESH, lambda _, outcome, __: outcome), rust_fault(lambda _, outcome, __: outcome)):
        if found != "nothing":
            yield found


def noticed(fault):
    """The balance by itself notices: for the register nothing else is there, and of the oracle's lines it comes first."""
    def check(_root):
        for first in (FRESH, held()):
            found = register_fault(first, fault)
            if not found.startswith("no balance: "):
                yield f"of the register: {found}"
        found = rust_fault(fault)
        if not found.startswith("the Rust: no balance: "):
            yield f"of the Rust: {found}"
    return check


def refused(_root):
    """A call that is refused after it was done."""
    found = register_fault(FRESH, done_and_refused)
    if found != "no balance: 0 at the start + 2 raised, but 0 active + 1 cleared + 0 expired":
        yield found


CHECKS = {
    "balance: the smallest lists": smallest,
    "balance: where it starts": starts,
    "balance: ways to count": rules,
    "balance: sums over lists": sums,
    "balance: sums do not wrap": unbounded,
    "balance: no fault": faultless,
    **{f"balance: a fault is noticed: {name}": noticed(fault) for name, fault in FAULTS.items()},
    "balance: a fault is noticed: done, and refused": refused,
}
