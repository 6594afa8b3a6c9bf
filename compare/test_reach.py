"""Whether the reach of one severity is document 02's (M-113), and whether the check of it notices. compare/test_differential.py runs
these checks, and those of test_reach_lists.py with them."""
import collections
from unittest import mock

import differential
import generate
import reach
import test_balance
import test_reach_lists
from calls import call
from differential import Case, Tools, checked, fault_of, modelled, report
from orders import Given, Open, Panel, Step
from records import LAYOUT, WIDTH, number, put_number
from soundness import sound_chains
from test_balance import SUMMARY, cleared, step

FRESH = generate.opened((4, 4, 1))


def raised(name, severity, **values):
    return step(1, id=name, object=(6, name), severity=severity, **values)


# ---- two lists

def places(_root):
    """Where a raise's severity is: behind operation, time, id and type."""
    named = call(1, id=b"abc", type=b"\5\4", severity=4)
    for name, data, wanted in [
        ("the worked call", call(1, severity=3), 1 + 8 + 5 + 5),
        ("an id and a type of other lengths", named, 1 + 8 + 7 + 6),
        ("no id and no type", call(1, id=b"", type=b""), 1 + 8 + 4 + 4),
        ("faults behind the severity", call(1, cause=b"z", text=b"\xff") + b"\0", 19),
        ("an end behind the severity", named[:23], 22),
        ("an end before the severity", named[:22], None),
        ("a severity that is none", call(1, severity=6), None),
        ("an id that is too long", call(1, id=b"i" * 65), None),
        ("nothing", b"", None),
        *((f"operation {op}", call(op), None) for op in range(2, 15)),
    ]:
        if reach.severity_at(data) != wanted:
            yield f"{name}: {reach.severity_at(data)}, not {wanted}"
    orders = [FRESH, SUMMARY, raised(b"a", 3), step(1, severity=9), raised(b"b", 0), cleared(b"a")]
    if reach.raises(orders) != [2, 4]:
        yield f"raises at {reach.raises(orders)}"


THREE, FOUR = raised(b"a", 3), raised(b"a", 4)
# in the place of the first list's one raise
NO_PAIRS = {
    "another time": raised(b"a", 3, time=1),
    "another severity and another time": raised(b"a", 4, time=1),
    "another text": raised(b"a", 3, text=b"x"),
    "another cause": raised(b"a", 3, cause=b"sbi-overload"),
    "a byte left over": Step(THREE.call + b"\0", 1552),
    "another severity and another answer length": FOUR._replace(room=1553),
    "a severity that is none": step(1, severity=6),
    "another operation": cleared(b"a"),
    "an opening": FRESH,
}


def pairs(_root):
    """Lists that differ in one severity are a pair."""
    orders = [FRESH, THREE, SUMMARY, THREE]
    for severity in (0, 1, 2, 4, 5):
        found = reach.entered(orders, reach.mistaken(orders, 3, severity))
        if found != (3, (3, severity)):
            yield f"severity {severity}: {found}"
    if reach.entered(orders, orders) != (None, ()):
        yield "equal lists have a place"


def no_pairs(_root):
    """Lists that differ in anything else are none, whichever is the first."""
    orders = [FRESH, THREE, SUMMARY, THREE]
    others = {name: [FRESH, order, SUMMARY, THREE] for name, order in NO_PAIRS.items()}
    others |= {"two severities": [FRESH, FOUR, SUMMARY, FOUR], "a call more": [*orders, SUMMARY], "a call less": orders[:-1]}
    for name, one, other in [(name, *sides) for name, list_ in others.items() for sides in ((orders, list_), (list_, orders))]:
        try:
            yield f"{name}: a pair, {reach.entered(one, other)}"
        except ValueError:
            pass


# ---- made-up outcomes of the second list

def followed(orders, others, change=lambda place, outcome: outcome, tally=None):
    """Place and text of the first fault, where outcomes of the second list are changed; None where none is found."""
    law = reach.Reach(orders, others, collections.Counter() if tally is None else tally)
    for place, (order, one, other) in enumerate(zip(orders, modelled(orders), modelled(others))):
        fault = law.fault(order, one, change(place, other._replace(register=bytearray(other.register))))
        if fault:
            return place, fault
    return None


def lengthened(register):
    put_number(register, "active_length", number(register, "active_length") + 1)


def with_severity(chain, index, severity):
    """A change of the severity that an alarm of a chain has."""
    def change(register):
        register[WIDTH * sound_chains(register)[chain][index] + LAYOUT["alarm"]["severity"]] = severity
    return change


def without_last(register):
    """The active chain without its last alarm, and its length as it was."""
    before_last = sound_chains(register)[0][-2]
    register[WIDTH * before_last:WIDTH * before_last + 4] = bytes(4)


def without_first_two(register):
    put_number(register, "active_head", sound_chains(register)[0][2])


# the third raise is entered as 4
ACTIVE = [raised(b"a", 3), raised(b"b", 2), raised(b"c", 3), raised(b"d", 3)]
WRONG = {
    "no change": (lambda register: None, None),
    "an active length one off": (lengthened, "active lengths 4 and 5"),
    "a count two off": (with_severity(0, 0, 4), "3 and 1 active alarms of severity 3; entered were (3, 4)"),
    "a third severity's count one off": (with_severity(0, 1, 1), "0 and 1 active alarms of severity 1; entered were (3, 4)"),
    "a third severity's alarm entered as one of the two": (with_severity(0, 1, 3), "1 and 0 active alarms of severity 2; entered were (3, 4)"),
    "the wrong severity healed": (with_severity(0, 2, 3), None),
    "an alarm of history": (with_severity(1, 0, 5), None),
    "a chain without its first two": (without_first_two, "1 and 0 active alarms of severity 2; entered were (3, 4)"),
    "a chain without its last": (without_last, "3 and 1 active alarms of severity 3; entered were (3, 4)"),
}


def at(place, change):
    def changed(here, outcome):
        if here == place:
            change(outcome.register)
        return outcome
    return changed


def wrong(_root):
    """Faults of the register after a call behind the raise."""
    orders = [FRESH, *ACTIVE, SUMMARY]
    others = reach.mistaken(orders, 3, 4)
    for name, (change, text) in WRONG.items():
        found, wanted = followed(orders, others, at(5, change)), text and (5, f"one severity: {text}")
        if found != wanted:
            yield f"{name}: {found}, not {wanted}"


def rust_fault(severities):
    """What is found where the Rust's active list has these severities after the last call of the second list, and true ones in the first."""
    orders = [FRESH, *ACTIVE, SUMMARY]
    others = reach.mistaken(orders, 3, 4)
    law = reach.Reach(orders, others, collections.Counter())
    for order, one, other in zip(orders, modelled(orders), modelled(others)):
        lists = ([3, 2, 3, 3], severities) if order == SUMMARY else ([], [])
        found = law.fault(order, *(outcome._replace(rust=list_) for outcome, list_ in zip((one, other), lists)))
    return found


def by_rust(_root):
    """Faults of the Rust's own active list."""
    for severities, text in [([3, 2, 4, 3], None), ([2, 3, 3, 4], None), ([3, 2, 3, 3], None), ([3, 2, 4], "active lengths 4 and 3"),
                             ([3, 2, 4, 4], "3 and 1 active alarms of severity 3; entered were (3, 4)"),
                             ([3, 1, 4, 3], "0 and 1 active alarms of severity 1; entered were (3, 4)")]:
        found, wanted = rust_fault(severities), text and f"one severity by the Rust: {text}"
        if found != wanted:
            yield f"{severities}: {found}, not {wanted}"


def spoken(_path, orders):
    """What the oracle writes for a list, by the model."""
    lines = [test_balance.printed(order, outcome, outcome) if outcome.number == 0 or isinstance(order, Panel) else f"refused {outcome.number}"
             for order, outcome in zip(orders, modelled(orders))]
    return "".join(line + "\n" for line in lines).encode()


def rust_followed(_root):
    """The severities of the Rust's lines are those of the register's active chain, also where a call is refused."""
    orders = [FRESH, *ACTIVE, Step(b"", 1552), cleared(b"a"), FRESH]
    tally = collections.Counter()
    with mock.patch.object(differential, "ran", spoken):
        for place, outcome in enumerate(differential.outcomes(orders, Tools(oracle="oracle"), tally)):
            if reach.in_rust(outcome.rust) != reach.in_register(outcome.register):
                yield f"order {place}: {outcome.rust}"
        checked(Case(orders, mistaken=reach.mistaken(orders, 3, 4)), Tools(oracle="oracle"), tally)
    for name, wanted in ((reach.COMPARED, 4), (reach.DIFFER, 4)):
        found = [tally[reach.tallied(name + by)] for by in ("", reach.BY_RUST)]
        if found != [wanted, wanted]:
            yield f"{name}: {found}"


# ---- where the law is not said

SUPPRESS = step(6, time=3)
EXPIRE = step(7, time=3)
POLICY = (5, 6, 13)
REFUSED = [*(Step(call(op) + b"\0", 1552) for op in POLICY), *(step(op, 1551) for op in POLICY), step(13, end=0), Step(b"\5", 1552),
           Step(b"\x0d", 1552), Step(b"\x0f", 1552)]
UNTIL, LIFT = step(13), step(14, time=1)  # an alarm is suppressed until 1, and lifted
CRITICAL = raised(b"a", 5)  # entered as 4


def unsound():
    register = bytearray([*modelled([FRESH, *ACTIVE])][-1].register)
    lengthened(register)
    return Given(bytes(register))


# orders of which the first raise is entered wrong; at the last one the second list's active length is made one off: whether that is noticed
SAID = [
    ("the raise itself", [FRESH, CRITICAL], True),
    ("a call behind it", [FRESH, CRITICAL, SUMMARY], True),
    ("a refused raise", [FRESH, step(1, 1551, severity=5), SUMMARY], True),
    ("an answered suppress with policy", [FRESH, CRITICAL, SUPPRESS], False),
    ("an answered acknowledge with policy", [FRESH, CRITICAL, step(5)], False),
    ("an answered suppress until a time", [FRESH, CRITICAL, UNTIL], False),
    ("a lift", [FRESH, CRITICAL, LIFT], True),
    ("a policy call that finds nothing", [FRESH, CRITICAL, step(5, id=b"x")], False),
    ("behind an answered policy call", [FRESH, CRITICAL, SUPPRESS, SUMMARY], False),
    ("behind refused policy calls", [FRESH, CRITICAL, *REFUSED, SUMMARY], True),
    *(("a refused call", [FRESH, CRITICAL, order], True) for order in REFUSED),
    ("behind refused policy calls and an answered one", [FRESH, CRITICAL, *REFUSED, SUPPRESS, *REFUSED], False),
    ("behind a policy call before the raise", [FRESH, SUPPRESS, CRITICAL, SUMMARY], True),
    ("a new register behind an answered policy call", [FRESH, CRITICAL, SUPPRESS, FRESH], True),
    ("a policy call on a new register", [FRESH, CRITICAL, FRESH, SUPPRESS], True),
    ("a given register", [test_balance.held(), CRITICAL, SUMMARY], True),
    ("a register that is not sound", [unsound(), CRITICAL, SUMMARY], False),
    ("an opening that is refused", [FRESH, Open((0, 1, 1), 1536), CRITICAL, SUMMARY], False),
    ("a register behind one that is not sound", [unsound(), CRITICAL, FRESH, SUMMARY], True),
]


def said(_root):
    for name, orders, wanted in SAID:
        others = reach.mistaken(orders, reach.raises(orders)[0], 4)
        last = len(orders) - 1
        found = followed(orders, others, at(last, lengthened))
        if (found and found[0]) != (last if wanted else None):
            yield f"{name}: {found}"


def one_answers(_root):
    """A policy call that is answered in one list alone ends the check in both."""
    orders = [FRESH, CRITICAL, REFUSED[0], SUMMARY]

    def answered(place, outcome):
        return at(3, lengthened)(place, outcome._replace(number=0) if place == 2 else outcome)
    found = followed(orders, reach.mistaken(orders, 1, 4), answered)
    if found:
        yield f"{found}"


def policy_needed(_root):
    """An answered policy call lets a critical severity reach further: the law is not true of such lists, and is not said of them."""
    orders = [FRESH, CRITICAL, SUPPRESS, EXPIRE]
    others = reach.mistaken(orders, 1, 4)
    lengths = [number([*modelled(list_)][-1].register, "active_length") for list_ in (orders, others)]
    if lengths != [0, 1]:
        yield f"active lengths {lengths}"
    if followed(orders, others):
        yield f"{followed(orders, others)}"


# ---- joined to the comparison

def joined(_root):
    """The fault of a case's mistaken list is found, made small and reported."""
    orders = [FRESH, *ACTIVE, SUMMARY, SUMMARY]
    case, entered = Case(orders, mistaken=reach.mistaken(orders, 3, 4)), raised(b"c", 4)

    def faulty(list_):
        for order, outcome in zip(list_, modelled(list_)):
            copied = outcome._replace(register=bytearray(outcome.register))
            if entered in list_ and order == SUMMARY:
                with_severity(0, 0, 1)(copied.register)
            yield copied
    if fault_of(case, Tools()):
        yield f"no fault: {fault_of(case, Tools())}"
    with mock.patch.object(differential, "modelled", faulty):
        rows = report(case, Tools()).splitlines()
    heads = ["after order 2: one severity: 0 and 1 active alarms of severity 1; entered were (3, 4)", "a list:", "the list with another severity:"]
    if [row for row in rows if not row.startswith("  ")] != heads or len(rows) != len(heads) + 2 * 3:
        yield from rows


# lists of which the raise at a place is entered as 4, with what is met behind it
TALLIES = [
    ([generate.opened((1, 1, 1)), THREE, step(8, 16, severity_or_all=3), step(8, 1551), step(8, severity_or_all=3), EXPIRE, SUMMARY], 1,
     {reach.PAIRS: 1, reach.COMPARED: 6, reach.DIFFER: 4, "raises answered Raised": 1, "calls refused in one list alone": 1,
      "answer slices too short in both": 1, "answers of two lengths": 1}),
    ([FRESH, THREE, THREE, THREE, *REFUSED[:7], SUPPRESS, SUMMARY], 3,
     {reach.PAIRS: 1, reach.COMPARED: 8, reach.DIFFER: 8, "raises answered Updated": 1, "histories of two lengths": 8,
      reach.REFUSED_POLICY: 7, "answer slices too short in both": 3, reach.ENDED: 1}),
    ([FRESH, THREE, THREE, UNTIL, THREE, step(14, time=0), step(14, 1551, time=1), LIFT, LIFT], 4,
     {reach.PAIRS: 1, reach.COMPARED: 5, reach.DIFFER: 5, "raises answered Updated": 1, "histories of two lengths": 3, reach.LIFTED: 1,
      "answer slices too short in both": 1}),
    ([test_balance.held(), SUMMARY, THREE, cleared(b"a"), FRESH, THREE], 2,
     {reach.PAIRS: 1, reach.COMPARED: 2, reach.DIFFER: 1, "raises answered Raised": 1, reach.ON_GIVEN: 1}),
    ([FRESH, step(1, 1551, 1), SUMMARY], 1, {reach.PAIRS: 1, reach.COMPARED: 2, "answer slices too short in both": 1}),
    ([unsound(), THREE, SUMMARY, SUPPRESS], 1, {}),
]


def tallies(_root):
    """What is counted; a run must meet each of these names."""
    total = collections.Counter()
    for orders, place, wanted in TALLIES:
        tally = collections.Counter()
        followed(orders, reach.mistaken(orders, place, 4), tally=tally)
        if tally != {reach.tallied(name): n for name, n in wanted.items()}:
            yield f"{dict(tally)}, not {wanted}"
        total += tally
    if reach.unmet(total, False) or len(reach.unmet(collections.Counter(), False)) != len(reach.NAMES):
        yield f"not met: {reach.unmet(total, False)}"
    if reach.unmet(total, True) != ["no calls compared by the Rust", "no counts that differ by the Rust"]:
        yield f"not met: {reach.unmet(total, True)}"


CHECKS = {
    "one severity: where it is": places,
    "one severity: pairs of lists": pairs,
    "one severity: lists that are no pair": no_pairs,
    "one severity: faults are noticed": wrong,
    "one severity: faults of the Rust are noticed": by_rust,
    "one severity: the Rust's active list": rust_followed,
    "one severity: where the law is said": said,
    "one severity: a policy call answered in one list": one_answers,
    "one severity: policy calls are rightly left aside": policy_needed,
    "one severity: a case with a mistaken list": joined,
    "one severity: what is met": tallies,
    **test_reach_lists.CHECKS,
}
