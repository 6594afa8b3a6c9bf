"""The balance of a list of calls: M-111 of document 02, over document 01's answers and docs/layout.json, and not from the definition.

What is counted is read as docs/DECISIONS.md, 2.2, reads it: a wrong reading there would be one here too.

After every call from a fresh register: answers Raised = active length + answers Cleared + the sum of the numbers that expire calls gave.
From another sound register its active length is added on the left. Refused calls count nothing. Python's numbers do not wrap.
"""
from orders import Given, Open, Step
from records import number
from soundness import sound_chains

CODE_RAISED, CODE_CLEARED = 1, 3
EXPIRE = 7  # the operation
# what a tally calls the three sums
NAMES = ("alarms raised", "alarms cleared", "alarms expired")
BY_RUST = " by the Rust"


def events(op, code, n):
    """How many alarms an answer says are raised, cleared and expired: by its call's operation, its code and its number."""
    return int(code == CODE_RAISED), int(code == CODE_CLEARED), n if op == EXPIRE else 0


class Balance:
    """The balance of the calls from one register on; a tally has the sums over all registers."""

    def __init__(self, start, tally, by=""):
        self.start, self.sums, self.tally, self.by = start, (0, 0, 0), tally, by

    def count(self, op, code, n):
        found = events(op, code, n)
        self.sums = tuple(map(sum, zip(self.sums, found)))
        for name, more in zip(NAMES, found):
            self.tally[name + self.by] += more

    def fault(self, active):
        """The figures as text where they do not balance with this active length; None where they do."""
        raised, cleared, expired = self.sums
        if self.start + raised == active + cleared + expired:
            return None
        return f"no balance: {self.start} at the start + {raised} raised, but {active} active + {cleared} cleared + {expired} expired"


class RegisterBalance:
    """The balance of a list in the register's bytes. A register that is not sound has none, nor has one whose opening was refused."""

    def __init__(self, tally):
        self.tally, self.balance = tally, None

    def fault(self, order, outcome):
        """What does not balance after an order, as text; None where all does."""
        if isinstance(order, Open):
            self.balance = None if outcome.number else Balance(0, self.tally)
        elif isinstance(order, Given):
            sound = sound_chains(outcome.register) is not None
            self.balance = Balance(number(outcome.register, "active_length"), self.tally) if sound else None
        elif isinstance(order, Step) and outcome.number == 0 and self.balance:
            self.balance.count(order.call[0], outcome.answer[0], int.from_bytes(outcome.answer[8:16], "big"))
        return self.balance and self.balance.fault(number(outcome.register, "active_length"))


def unmet(tally, by_rust):
    """The sums of a tally that are 0, where a run must meet all of them: a balance of zeros shows nothing."""
    sides = ["", BY_RUST] if by_rust else [""]
    return [f"no {name}{by}" for by in sides for name in NAMES if not tally[name + by]]
