"""Calls on registers that hold ends (M-105 of document 02): operations 13 and 14, and what a call meets and leaves.

The Rust has neither operation 13 nor 14: it is not given a list with one of them, refused ones among them. There the register is compared
with the model alone.
"""
from typing import NamedTuple

from records import alarm_of, unlinked
from register import SAME
from soundness import sound_chains

RAISE, CLEAR, ACKNOWLEDGE, SUPPRESS, ACKNOWLEDGE_BY_POLICY, SUPPRESS_BY_POLICY, EXPIRE, ACTIVE, HISTORY = range(1, 10)  # operations
SUPPRESS_UNTIL, LIFT = 13, 14
POLICY = (ACKNOWLEDGE_BY_POLICY, SUPPRESS_BY_POLICY, SUPPRESS_UNTIL)
NOT_SOUND, LENGTH, TOO_SHORT, NOT_LATER = 22, 24, 30, 34  # refusals
RAISED, UPDATED = 0, 1  # states
EARLIEST, LATEST = -2**63, 2**63 - 1


def is_timed(call):
    """Whether a call is, by its first byte, of an operation that the Rust does not have."""
    return call[:1] in (b"\x0d", b"\x0e")


# ---- what a register holds

class Held(NamedTuple):
    """The active alarms of a register by index, in order; the entries of history, each with its index."""
    active: dict
    history: list


def held(register):
    """None where the register is not sound."""
    data, chains = bytes(register), sound_chains(register)
    if chains is None:
        return None
    active, history = ([(index, alarm_of(unlinked(data, index))) for index in chain] for chain in chains[:2])
    return Held(dict(active), history)


def same(one, other):
    """Whether two alarms would be one entry of history."""
    return all(one[name] == other[name] for name in SAME)


# ---- a call

class CallMet(NamedTuple):
    """A call: its bytes, its answer's room, its fields where all are read without a fault; refusal's number or 0, answer's code or 0, the number
    and the message that are answered; what the register held before and after it."""
    data: bytes
    room: int
    fields: dict
    number: int
    code: int
    told: int
    body: bytes
    before: Held
    after: Held

    @property
    def op(self):
        return self.data[0]

    def target(self):
        """The first active alarm that has the call's id, before the call."""
        wanted = self.fields.get("id")
        return next((alarm for alarm in self.before.active.values() if alarm["id"] == wanted), None)

    def changed(self):
        """The alarms that stay active and are changed, before and after it."""
        pairs = [(alarm, self.after.active[index]) for index, alarm in self.before.active.items() if index in self.after.active]
        return [(old, new) for old, new in pairs if old != new]

    def ended(self):
        """The alarms that have left the active chain."""
        return [alarm for index, alarm in self.before.active.items() if index not in self.after.active]

    def ended_with_end(self):
        return [alarm for alarm in self.ended() if alarm["end"] is not None]

    def overwritten(self):
        """The newest entry of history before and after the call, where it was overwritten by one with other fields; else None."""
        if not (self.before.history and self.after.history):
            return None
        (place, old), (index, new) = self.before.history[-1], self.after.history[-1]
        return (old, new) if place == index and same(old, new) and old != new else None
