"""Wrong ways to count raises (M-100): each puts something else in the place of a part of the model, for as long as a `with` lasts.

compare/standin.py steps with them in the register's place; compare/test_raises.py tries whether the smallest inputs tell them apart.
"""
import contextlib

import model
import register
from records import MOST_RAISES, alarm_of, alarm_record
from register import Register

ADD, CHANGE, END, REMEMBER, ACTED = Register.add, Register.change, Register.end, Register.remember, model.acted


@contextlib.contextmanager
def replaced(owner, name, other):
    former = getattr(owner, name)
    setattr(owner, name, other)
    try:
        yield
    finally:
        setattr(owner, name, former)


def one_more(wrong):
    """Another number after an answer Updated."""
    return lambda: replaced(model, "one_more", wrong)


def counted(register_, index):
    """Adds one to the raises of a record."""
    alarm = register_.alarm(index)
    register_.write(index, alarm_record(alarm | {"raises": model.one_more(alarm["raises"])}))


def at_answers(*codes):
    """The first active alarm is counted at answers of these codes too."""
    def counting(step):
        def stepped(register_, op, call):
            answer = step(register_, op, call)
            if answer[0] in codes and register_.active:
                counted(register_, register_.active[0])
            return answer
        return stepped
    return lambda: replaced(model, "STEPS", {op: counting(step) for op, step in model.STEPS.items()})


def by_an_action():
    """Acknowledge and suppress count too."""
    def acted(register_, op, index, alarm, late, end=None):
        return ACTED(register_, op, index, alarm | {"raises": model.one_more(alarm["raises"])}, late, end)
    return replaced(model, "acted", acted)


def by_state():
    """Counted where the state becomes updated, and not where it stays acknowledged or suppressed."""
    def change(self, index, alarm, **fields):
        return CHANGE(self, index, alarm, **fields | ({} if fields["state"] == model.UPDATED else {"raises": alarm["raises"]}))
    return replaced(Register, "change", change)


def all_of_a_key():
    """Not the first match alone is counted."""
    def change(self, index, alarm, **fields):
        record = CHANGE(self, index, alarm, **fields)
        for other in self.active:
            if "raises" in fields and other != index and self.alarm(other)["key"] == alarm["key"]:
                counted(self, other)
        return record
    return replaced(Register, "change", change)


def none_when_raised():
    return replaced(model, "alarm_record", lambda alarm: alarm_record(alarm | {"raises": 0}))


def after_a_clear():
    """An alarm that is raised anew goes on from what history holds of its key."""
    def add(self, chain, record):
        if chain is self.active:
            alarm = alarm_of(record)
            former = [entry["raises"] for entry in map(self.alarm, self.history) if entry["key"] == alarm["key"]]
            record = alarm_record(alarm | {"raises": model.one_more(former[-1])}) if former else record
        ADD(self, chain, record)
    return replaced(Register, "add", add)


def in_history(count):
    """An entry of a changed alarm holds another count, by that before and after the change."""
    def change(self, index, alarm, **fields):
        with replaced(Register, "remember", lambda *_: None):
            record = CHANGE(self, index, alarm, **fields)
        alarm = alarm | fields | {"raises": count(alarm["raises"], (alarm | fields)["raises"])}
        self.remember(alarm, alarm_record(alarm))
        return record
    return lambda: replaced(Register, "change", change)


def overwritten(count):
    """An overwritten entry holds another count, by its own and that of the changed alarm."""
    def remember(self, alarm, record):
        newest = self.alarm(self.history[-1]) if self.history else {}
        if newest and all(newest[name] == alarm[name] for name in register.SAME):
            record = alarm_record(alarm | {"raises": count(newest["raises"], alarm["raises"])})
        REMEMBER(self, alarm, record)
    return lambda: replaced(Register, "remember", remember)


def at_the_end(count):
    """The entry of a cleared or expired alarm holds another count."""
    def end(self, index, alarm, **fields):
        END(self, index, alarm, raises=count(alarm["raises"]), **fields)
    return lambda: replaced(Register, "end", end)


def part_of_sameness():
    return replaced(register, "SAME", (*register.SAME, "raises"))


# what lists from a fresh register show
WRONG = {
    "0 when raised": none_when_raised,
    "counted at the active limit": at_answers(model.CODE_LIMIT),
    "counted at a clear that finds none": at_answers(model.CODE_CLEAR_WITHOUT_ACTIVE),
    "counted at actions that change nothing": at_answers(model.CODE_UNAUTHORIZED, model.CODE_AUDIT_FAILED, model.CODE_NOT_FOUND),
    "counted at reports": at_answers(model.CODE_REPORT),
    "counted by acknowledge and suppress": by_an_action,
    "counted only where the state becomes updated": by_state,
    "counted on after a clear": after_a_clear,
    "part of sameness": part_of_sameness,
    "not copied to history: the entry has the count before": in_history(lambda before, after: before),
    "an overwritten entry keeps its own": overwritten(lambda own, changed: own),
    "an overwritten entry adds both": overwritten(lambda own, changed: min(own + changed, MOST_RAISES)),
    "lost at a clear and an expiry": at_the_end(lambda raises: 0),
    "counted at a clear and an expiry": at_the_end(model.one_more),
}
# what shows only on registers that are given
WRONG_ON_GIVEN = {
    "wrapped to 0": one_more(lambda raises: (raises + 1) % (MOST_RAISES + 1)),
    "held one too low": one_more(lambda raises: min(raises + 1, MOST_RAISES - 1)),
    "2 from an old record": one_more(lambda raises: min(raises + 1, MOST_RAISES) if raises else 2),
    "0 in an old record for ever": one_more(lambda raises: min(raises + 1, MOST_RAISES) if raises else 0),
    "counted in two bytes": one_more(lambda raises: min(raises + 1, 65535)),
    "every alarm of the key counted": all_of_a_key,
}
