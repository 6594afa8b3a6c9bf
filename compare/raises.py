"""The raises of alarms (M-100 of document 02) beside the Rust's own answers, and what a run must meet of them.

The Rust does not count raises. What is checked against it is how often it answered: on lists from a fresh register the raises of an active
alarm are 1 and the number of answers Updated that the Rust gave for its key since its last answer Raised, and an entry of history has the
raises that its alarm had when the Rust stored it. That Updated counts and no other answer, that counting starts at 1, and that the count
rides in each entry is this file's reading of document 02, not the Rust's. Counts that are held at the largest number and counts on
registers that are given have nothing in the Rust to be set beside: there the register is compared with the model alone.
"""
from typing import NamedTuple, Optional

from balance import CODE_CLEARED, CODE_RAISED, EXPIRE
from headline import ACKNOWLEDGED, SUPPRESSED
from orders import Step
from original import alarm_shown, runs
from records import MOST_RAISES, WIDTH, alarm_of, raises_at, unlinked
from register import SAME
from soundness import sound_chains, walked
from timed import LIFT, is_timed

CODE_UPDATED, CODE_LIMIT, CODE_SUPPRESSED, CODE_ACKNOWLEDGED = 2, 5, 6, 7
ANSWERED_ALARM = (CODE_RAISED, CODE_UPDATED, CODE_SUPPRESSED, CODE_ACKNOWLEDGED)
ID_IS_ACTIVE = 31  # the refusal


# ---- by the Rust's answers

class Answers:
    """The raises of the Rust's active alarms, by key, and of the entries of its history, by its answers from a fresh register on."""

    def __init__(self):
        self.active, self.entries, self.history = {}, [], []

    def follow(self, op, said):
        """Counts an answer; `said` is the oracle's line, with what the Rust holds after the call."""
        code, state = said["code"], said["state"]
        if code in (CODE_RAISED, CODE_UPDATED):
            key = said["alarm"]["key"]
            self.active[key] = 1 if code == CODE_RAISED else self.active.get(key, 0) + 1
        self.store(state["history"], said["number"] if op == EXPIRE else int(code in (*ANSWERED_ALARM, CODE_CLEARED)))
        self.active = {alarm["key"]: self.active.get(alarm["key"]) for alarm in state["active"]}

    def store(self, entries, changes):
        """So many stored changes have made these entries: the newest have their alarms' raises, and those before them keep theirs."""
        kept = len(entries) - min(changes, len(entries))
        overwritten = changes == 1 and entries[:kept] == self.entries[:-1]
        former = self.history[:-1] if overwritten else self.history
        self.history = former[len(former) - kept:] + [self.active.get(entry["key"]) for entry in entries[kept:]]
        self.entries = entries

    def active_counted(self, alarms):
        """Active alarms as the oracle prints them, with their raises."""
        return [alarm | {"raises": self.active[alarm["key"]]} for alarm in alarms]

    def history_counted(self):
        return [entry | {"raises": raises} for entry, raises in zip(self.entries, self.history)]

    def fault(self, said, answer, register):
        """What of the raises in an answer and a register is not by these answers, as text; None where all are."""
        data = bytes(register)
        active, history = ([unlinked(data, index) for index in chain] for chain in walked(data)[:2])
        found = {alarm_of(record)["key"].hex(): raises_at(record) for record in active}
        if found != self.active:
            return f"raises {found}, by the Rust's answers {self.active}"
        if said["code"] in ANSWERED_ALARM and raises_at(answer[16:]) != self.active[said["alarm"]["key"]]:
            return f"answered raises {raises_at(answer[16:])}, by the Rust's answers {self.active[said['alarm']['key']]}"
        return self.history_fault([alarm_shown(record) | {"raises": raises_at(record)} for record in history])

    def history_fault(self, entries):
        """Alarms that were expired together stand in the Rust's order; of a run that the limit cut, others may be left there."""
        for ours, theirs in zip(*(reversed(runs(side)) for side in (entries, self.history_counted()))):
            keys, counts = ([[alarm[name] for alarm in side] for side in (ours, theirs)] for name in ("key", "raises"))
            if keys[0] == keys[1] and counts[0] != counts[1]:
                return f"raises in history {counts[0]}, by the Rust's answers {counts[1]}"
        return None

    def count(self, tally):
        """Counts what shows something: raises that are more than one."""
        for name, counts in zip(BY_ANSWERS, (self.active.values(), self.history)):
            tally[tallied(name)] += sum(raises > 1 for raises in counts)


# ---- what is met

class Held(NamedTuple):
    """The active alarms of a register by index, in order; index and alarm of history's newest entry."""
    active: dict
    newest: Optional[tuple]


def held(register):
    """None where the register is not sound."""
    data, chains = bytes(register), sound_chains(register)
    if chains is None:
        return None
    active, newest = ([(index, alarm_of(unlinked(data, index))) for index in chain] for chain in (chains[0], chains[1][-1:]))
    return Held(dict(active), *(newest or [None]))


class CallMet(NamedTuple):
    """A call: its operation, refusal's number or 0, answer's code or 0; what the register held before and after it; the alarm that is answered,
    and the first active one before the call that has its key."""
    op: int
    number: int
    code: int
    before: Held
    after: Held
    answered: Optional[dict] = None
    former: Optional[dict] = None

    def updated_from(self, least, most):
        return self.code == CODE_UPDATED and least <= self.former["raises"] <= most

    def updated_in(self, state):
        return self.code == CODE_UPDATED and self.former["state"] == state

    def acted(self, code):
        return self.code == code and self.answered["raises"] > 1

    def ended(self):
        """Whether an alarm with more than one raise has left the active chain."""
        return any(alarm["raises"] > 1 for index, alarm in self.before.active.items() if index not in self.after.active)

    def lifted(self):
        """Whether an alarm with more than one raise has become updated without being raised."""
        states = [(alarm, self.after.active[index]) for index, alarm in self.before.active.items()] if self.op == LIFT else []
        return any(old["state"] != new["state"] and new["raises"] > 1 for old, new in states)

    def overwritten(self):
        """Whether the newest entry has become one with another count."""
        if not (self.before.newest and self.after.newest):
            return False
        (place, old), (index, new) = self.before.newest, self.after.newest
        return place == index and all(old[name] == new[name] for name in SAME) and old["raises"] != new["raises"]


KINDS = {
    "raised, with 1": lambda call: call.code == CODE_RAISED and call.answered["raises"] == 1,
    "updated in between": lambda call: call.updated_from(1, MOST_RAISES - 2),
    "updated while acknowledged": lambda call: call.updated_in(ACKNOWLEDGED),
    "updated while suppressed": lambda call: call.updated_in(SUPPRESSED),
    "not counted at the active limit": lambda call: call.code == CODE_LIMIT,
    "not counted where an id is active": lambda call: call.number == ID_IS_ACTIVE,
    "acknowledged with more than 1": lambda call: call.acted(CODE_ACKNOWLEDGED),
    "suppressed with more than 1": lambda call: call.acted(CODE_SUPPRESSED),
    "lifted with more than 1": CallMet.lifted,
    "cleared with more than 1": lambda call: call.code == CODE_CLEARED and call.ended(),
    "expired with more than 1": lambda call: call.op == EXPIRE and call.ended(),
    "an entry overwritten by one with another count": CallMet.overwritten,
}
# no list from a fresh register comes to these
ON_BYTES = {
    "updated from 0 to 1": lambda call: call.updated_from(0, 0),
    "updated to the largest number": lambda call: call.updated_from(MOST_RAISES - 1, MOST_RAISES - 1),
    "held at the largest number": lambda call: call.updated_from(MOST_RAISES, MOST_RAISES),
}
BY_ANSWERS = ("active alarms with more than 1 by the Rust's answers", "entries with more than 1 by the Rust's answers")


def tallied(name):
    return f"raises: {name}"


class Met:
    """Counts the kinds of a list's calls."""

    def __init__(self, tally):
        self.tally, self.held = tally, None

    def see(self, order, outcome):
        is_step = isinstance(order, Step)
        if is_step and (outcome.number not in (0, ID_IS_ACTIVE) or order.call[0] > EXPIRE and not is_timed(order.call)):
            return
        before, self.held = self.held, held(outcome.register)
        if is_step and before and self.held:
            call = called(order, outcome, before, self.held)
            self.tally.update(tallied(name) for name, is_of in (KINDS | ON_BYTES).items() if is_of(call))


def called(order, outcome, before, after):
    code = 0 if outcome.number else outcome.answer[0]
    call = CallMet(order.call[0], outcome.number, code, before, after)
    if code not in ANSWERED_ALARM:
        return call
    answered = alarm_of(bytes(outcome.answer[16:16 + WIDTH]))
    former = next((alarm for alarm in before.active.values() if alarm["key"] == answered["key"]), None)
    return call._replace(answered=answered, former=former)


def unmet(tally, on_bytes, by_rust):
    """The kinds that a run must meet and did not; some are met only on given registers."""
    names = [*KINDS, *(ON_BYTES if on_bytes else []), *(BY_ANSWERS if by_rust else [])]
    return [f"no {tallied(name)}" for name in names if not tally[tallied(name)]]
