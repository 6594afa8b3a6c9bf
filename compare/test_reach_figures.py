"""Whether counts of any severity, and numbers and heads of answers, that differ behind a wrong severity are noticed (M-113).
compare/test_differential.py runs these checks."""
import reach
from orders import Step
from test_balance import SUMMARY, cleared, step
from test_reach import FRESH, followed, raised

EXPIRE = step(7, time=3)
# by operation: a call behind a raise of severity 3, entered as 4
LAST = {1: raised(b"b", 3), 2: cleared(b"a"), 3: step(3, time=1), 4: step(4, time=1), 7: EXPIRE, 11: SUMMARY, 14: step(14, time=3)}
OTHERS = {8: step(8), 9: step(9), 10: step(10), 12: step(12)}
SHORT = Step(SUMMARY.call, 1551)


# ---- counts

# counts of the second list beside ONE, the two severities, and whether that keeps the law
ONE = [2, 2, 2, 2, 2, 2]
COUNTS = [
    (ONE, (3, 4), True),
    ([2, 2, 2, 1, 3, 2], (3, 4), True),
    ([2, 2, 2, 3, 1, 2], (3, 4), False),
    ([2, 2, 2, 3, 1, 2], (4, 3), True),
    ([2, 2, 2, 0, 4, 2], (3, 4), False),
    ([1, 2, 2, 2, 2, 3], (0, 5), True),
    ([3, 2, 2, 2, 2, 1], (5, 0), True),
    *((ONE[:place] + [1] + ONE[place + 1:5] + [3], (place, 4), False) for place in range(4)),
    *(([3] + ONE[1:place] + [1] + ONE[place + 1:], (place, 1), False) for place in range(2, 6)),
    *((ONE[:place] + [3] + ONE[place + 1:4] + [1, 2], (4, 5), False) for place in range(4)),
]


def counts(_root):
    """The first list may have one alarm more of the severity that it has, the second of the other; of no other severity."""
    for other, severities, wanted in COUNTS:
        found = reach.broken(reach.Active(12, ONE), reach.Active(12, other), severities)
        if (found is None) != wanted:
            yield f"{other}, {severities}: {found}"


# ---- answers

def with_byte(place):
    """Another byte of the answer slice."""
    def change(outcome):
        answer = bytearray(outcome.answer)
        answer[place] ^= 1
        return outcome._replace(answer=answer)
    return change


CHANGES = {f"byte {place} of the head": with_byte(place) for place in range(16)}
CHANGES |= {
    "another number": lambda outcome: outcome._replace(number=31),
    "no head": lambda outcome: outcome._replace(length=0),
    "part of a head": lambda outcome: outcome._replace(length=15),
}
BEHIND = {"a byte behind the head": with_byte(16)}


def fault_behind(order, change):
    """What is found where the second list's outcome of a last order is changed."""
    orders = [FRESH, raised(b"a", 3), order]
    return followed(orders, reach.mistaken(orders, 1, 4), lambda place, outcome: change(outcome) if place == 2 else outcome)


def noticed(_root):
    for op, order in LAST.items():
        for name, change in CHANGES.items():
            found = fault_behind(order, change)
            if not found or not found[1].startswith(f"one severity: operation {op}: number 0, head "):
                yield f"operation {op}, {name}: {found}"


def refused_alike(_root):
    """A refusal has no head: the slice's former bytes are free, its number is not."""
    if fault_behind(SHORT, with_byte(0)):
        yield f"former bytes: {fault_behind(SHORT, with_byte(0))}"
    wanted = (2, "one severity: operation 11: number 30, head , and number 31, head ")
    if fault_behind(SHORT, CHANGES["another number"]) != wanted:
        yield f"{fault_behind(SHORT, CHANGES['another number'])}, not {wanted}"


def not_said(_root):
    """Nothing is said of what stands behind a head, nor of the numbers and heads of other operations."""
    cases = [(order, BEHIND) for order in LAST.values() if order is not EXPIRE] + [(order, CHANGES | BEHIND) for order in OTHERS.values()]
    for order, name, change in [(order, *item) for order, changes in cases for item in changes.items()]:
        if fault_behind(order, change):
            yield f"operation {order.call[0]}, {name}: {fault_behind(order, change)}"


CHECKS = {
    "one severity: counts of every severity": counts,
    "one severity: numbers and heads that differ are noticed": noticed,
    "one severity: a refusal has no head": refused_alike,
    "one severity: what is not said of answers": not_said,
}
