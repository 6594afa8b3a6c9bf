"""Wrong ways to lift (M-105), to put ends into history, and to judge records that hold ends: each puts something else in the place of a part of
the model, for as long as a `with` lasts.

compare/standin.py steps with them in the register's place; compare/test_ends.py tries whether the smallest inputs tell them apart.
"""
import model
import register
import soundness
from model import SUPPRESSED, UPDATED, answer_of
from reading import signed
from records import LAYOUT, WIDTH, alarm_of, alarm_record, put
from register import Register
from timed import LIFT
from wrong_raises import CHANGE, REMEMBER, replaced

IS_DUE, IS_OF_CHAIN, ALARM = model.is_due, soundness.is_of_chain, Register.alarm
PRESENT, AT = LAYOUT["alarm"]["end"]["present"], LAYOUT["alarm"]["end"]["at"]


# ---- lifts

def late(alarm, cutoff):
    return max(cutoff, alarm["raised_at"])


def right(alarm, cutoff):
    return {"state": UPDATED, "updated_at": late(alarm, cutoff), "end": None}


def lifting(due=IS_DUE, changed=right, order=list, number=len, behind=lambda register_, cutoff: None):
    """A lift that takes other alarms, changes them otherwise, in another order, tells another number, or does something behind."""
    def lift(register_, op, call):
        cutoff = signed(call["time"])
        alarms = [(index, register_.alarm(index)) for index in register_.active]
        found = order([(index, alarm) for index, alarm in alarms if due(alarm, cutoff)])
        for index, alarm in found:
            register_.change(index, alarm, **changed(alarm, cutoff))
        behind(register_, cutoff)
        return answer_of(model.CODE_REPORT, n=number(found))
    return lambda: replaced(model, "STEPS", model.STEPS | {LIFT: lift})


def with_time(updated_at):
    return lifting(changed=lambda alarm, cutoff: right(alarm, cutoff) | {"updated_at": updated_at(alarm, cutoff)})


def with_fields(**fields):
    return lifting(changed=lambda alarm, cutoff: right(alarm, cutoff) | fields)


def is_untimed_or_due(alarm, cutoff):
    return alarm["state"] == SUPPRESSED and (alarm["end"] is None or alarm["end"] <= cutoff)


def unsigned(n):
    return n % 2 ** 64


def entries_lifted(register_, cutoff):
    """Entries of history lose their ends too."""
    for index in register_.history:
        alarm = register_.alarm(index)
        if IS_DUE(alarm, cutoff):
            register_.write(index, alarm_record(alarm | {"state": UPDATED, "end": None}))


def by_entries():
    """The number is that of the entries with an end that has come."""
    def lift(register_, op, call):
        due = [index for index in register_.history if IS_DUE(register_.alarm(index), signed(call["time"]))]
        answer = model.lift(register_, op, call)
        return answer[:8] + len(due).to_bytes(8, "big") + answer[16:]
    return replaced(model, "STEPS", model.STEPS | {LIFT: lift})


# ---- history

def in_history(end):
    """The entry of a changed alarm has another end."""
    def remember(self, alarm, record):
        alarm = alarm | {"end": end(self, alarm)}
        REMEMBER(self, alarm, alarm_record(alarm))
    return lambda: replaced(Register, "remember", remember)


def own_end(self, alarm):
    newest = self.alarm(self.history[-1]) if self.history else {}
    return newest["end"] if newest and all(newest[name] == alarm[name] for name in register.SAME) else alarm["end"]


def only_in_history():
    """The active record has no end."""
    def change(self, index, alarm, **fields):
        record = CHANGE(self, index, alarm, **fields)
        self.write(index, alarm_record(alarm | fields | {"end": None}))
        return record
    return replaced(Register, "change", change)


def always_added():
    """A lift adds an entry even where the newest is like it."""
    def lift(register_, op, call):
        with replaced(register, "SAME", ("index",)), replaced(Register, "alarm", lambda self, index: ALARM(self, index) | {"index": index}):
            return model.lift(register_, op, call)
    return replaced(model, "STEPS", model.STEPS | {LIFT: lift})


# ---- soundness

def judged(chains, change):
    """A record of these chains is judged after a change, which knows its payload's bytes and its alarm."""
    def is_of_chain(chain, payload):
        if chain in chains:
            record = bytearray(4) + payload
            change(record, alarm_of(bytes(record)))
            payload = bytes(record[4:])
        return IS_OF_CHAIN(chain, payload)
    return lambda: replaced(soundness, "is_of_chain", is_of_chain)


def without_end(record, alarm):
    put(record, PRESENT, bytes(9))


def unsound(record):
    record[WIDTH - 1] = 1


def any_option(record, alarm):
    record[PRESENT] = min(record[PRESENT], 1)


def any_bytes(record, alarm):
    if record[PRESENT] == 0:
        put(record, AT, bytes(8))


def refused_if(is_wrong):
    def change(record, alarm):
        if is_wrong(alarm):
            unsound(record)
    return change


def has_end(alarm):
    return alarm["end"] is not None


def not_only_suppressed(record, alarm):
    """Acknowledged alarms may have an end too."""
    if alarm["state"] == model.ACKNOWLEDGED:
        without_end(record, alarm)


BOTH = ("active", "history")
# what lists from a fresh register show
WRONG = {
    "lifted only before the cutoff": lifting(due=lambda alarm, cutoff: IS_DUE(alarm, cutoff - 1)),
    "lifted one too early": lifting(due=lambda alarm, cutoff: IS_DUE(alarm, cutoff + 1)),
    "ends compared without a sign": lifting(due=lambda alarm, cutoff: alarm["end"] is not None and unsigned(alarm["end"]) <= unsigned(cutoff)),
    "lifted at sameness of end and cutoff alone": lifting(due=lambda alarm, cutoff: alarm["end"] == cutoff),
    "lifted by updated_at": lifting(due=lambda alarm, cutoff: alarm["end"] is not None and alarm["updated_at"] <= cutoff),
    "all suppressed alarms lifted": lifting(due=lambda alarm, cutoff: alarm["state"] == SUPPRESSED),
    "suppressed alarms without an end lifted": lifting(due=is_untimed_or_due),
    "lifted to raised": with_fields(state=model.RAISED),
    "lifted to acknowledged": with_fields(state=model.ACKNOWLEDGED),
    "lifted, and the end kept": lifting(changed=lambda alarm, cutoff: right(alarm, cutoff) | {"end": alarm["end"]}),
    "lifted, and the state kept": with_fields(state=SUPPRESSED),
    "lifted with the cutoff alone": with_time(lambda alarm, cutoff: cutoff),
    "lifted with the end's time": with_time(lambda alarm, cutoff: max(alarm["end"], alarm["raised_at"])),
    "lifted with updated_at kept": with_time(lambda alarm, cutoff: alarm["updated_at"]),
    "lifted with updated_at never before what it was": with_time(lambda alarm, cutoff: max(late(alarm, cutoff), alarm["updated_at"])),
    "lifted and counted as a raise": lifting(changed=lambda alarm, cutoff: right(alarm, cutoff) | {"raises": model.one_more(alarm["raises"])}),
    "lifted in the order of the ends": lifting(order=lambda found: sorted(found, key=lambda pair: pair[1]["end"])),
    "lifted last first": lifting(order=lambda found: found[::-1]),
    "only the first lifted": lifting(order=lambda found: found[:1]),
    "a lift tells no number": lifting(number=lambda found: 0),
    "entries of history lifted too": lifting(behind=entries_lifted),
    "the number of entries told": by_entries,
    "the end is part of sameness": lambda: replaced(register, "SAME", (*register.SAME, "end")),
    "no end in history": in_history(lambda self, alarm: None),
    "an overwritten entry keeps its own end": in_history(own_end),
    "an end in history alone": only_in_history,
    "an end is unsound on the active chain": judged(("active",), refused_if(has_end)),
    "an end is unsound on the history chain": judged(("history",), refused_if(has_end)),
    "a suppressed alarm without an end is unsound": judged(BOTH, refused_if(lambda alarm: alarm["state"] == SUPPRESSED and not has_end(alarm))),
    "an end that updated_at has reached is unsound": judged(BOTH, refused_if(lambda alarm: has_end(alarm) and alarm["end"] <= alarm["updated_at"])),
}
# what shows only on registers that are given
WRONG_ON_GIVEN = {
    "an end is sound in any state on the active chain": judged(("active",), without_end),
    "an end is sound in any state on the history chain": judged(("history",), without_end),
    "an acknowledged alarm may have an end": judged(BOTH, not_only_suppressed),
    "an option byte of 2 is sound": judged(BOTH, any_option),
    "the bytes of an end that is absent are free": judged(BOTH, any_bytes),
    "a lift adds an entry like the newest": always_added,
}
