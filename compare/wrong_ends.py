"""Wrong ways to suppress until a time (M-105): each puts something else in the place of a part of the model, for as long as a `with` lasts.

compare/wrong_lifts.py has those of lifts and of records. compare/standin.py steps with all of them in the register's place;
compare/test_ends.py tries whether the smallest inputs tell them apart.
"""
import imports  # noqa: F401  (finds the reading of calls)
import model
import reading
from model import CLEARED, CODE_AUDIT_FAILED, CODE_UNAUTHORIZED, EXPIRED, LEAST_ANSWER, SUPPRESSED, UPDATED
from reading import ACTION, Call, Refused, signed
from records import alarm_record
from register import Register
from timed import ACKNOWLEDGE, ACKNOWLEDGE_BY_POLICY, EXPIRE, LIFT, NOT_LATER, POLICY, SUPPRESS, SUPPRESS_BY_POLICY, SUPPRESS_UNTIL
from wrong_characters import together
from wrong_raises import ACTED, CHANGE, END, replaced

VALUE, STEPPED, IS_LATER = Call.value, model.stepped, reading.is_later


# ---- which calls keep and remove an end

def end_after(op, end):
    """After an answered action of this operation the alarm has another end: by what it was and by the end that was sent."""
    def acted(register_, sent_op, index, alarm, late, sent=None):
        return ACTED(register_, sent_op, index, alarm, late, end(alarm, sent) if sent_op == op else sent)
    return lambda: replaced(model, "acted", acted)


def kept_by(op):
    return end_after(op, lambda alarm, sent: alarm["end"])


def kept_at_the_end(state):
    """A cleared or expired alarm goes to history with its end."""
    def end(self, index, alarm, **fields):
        END(self, index, alarm, **fields | ({"end": alarm["end"]} if fields["state"] == state else {}))
    return lambda: replaced(Register, "end", end)


def updated(fields_of):
    """A raise changes other fields too: by the alarm before it and the fields that it sets."""
    def change(self, index, alarm, **fields):
        return CHANGE(self, index, alarm, **fields | (fields_of(alarm, fields) if "raises" in fields else {}))
    return lambda: replaced(Register, "change", change)


def after_its_end(alarm, fields):
    """A raise that comes after the end lifts the suppression."""
    has_come = alarm["end"] is not None and alarm["end"] <= fields["updated_at"]
    return {"state": UPDATED, "end": None} if has_come else {}


def stopped(op, codes, end):
    """An action of this operation that is answered so changes the end all the same."""
    def step(register_, sent_op, call):
        answer = (model.policy if op in POLICY else model.plain)(register_, sent_op, call)
        index, alarm = register_.find(id=call["id"])
        if alarm and answer[0] in codes and alarm["state"] == SUPPRESSED:
            register_.write(index, alarm_record(alarm | {"end": end(call)}))
        return answer
    return lambda: replaced(model, "STEPS", model.STEPS | {op: step})


def expiry(leaves):
    """An expiry leaves some alarms that it would end."""
    def expire(register_, op, call):
        kept = [index for index in register_.active if leaves(register_.alarm(index), signed(call["time"]))]
        alarm = Register.alarm
        with replaced(Register, "alarm", lambda self, index: alarm(self, index) | ({"updated_at": 2**63} if index in kept else {})):
            return model.expire(register_, op, call)
    return lambda: replaced(model, "STEPS", model.STEPS | {EXPIRE: expire})


# ---- operation 13 beside operation 6

def as_operation(op):
    """Operation 13 goes through the gates of another operation."""
    def policy(register_, _op, call):
        acted = model.acted
        end = signed(call["end"])
        with replaced(model, "acted", lambda r, _o, index, alarm, late, _end: acted(r, SUPPRESS_UNTIL, index, alarm, late, end)):
            return model.policy(register_, op, call)
    return lambda: replaced(model, "STEPS", model.STEPS | {SUPPRESS_UNTIL: policy})


def as_plain(register_, _op, call):
    """Operation 13 as a plain suppress: no gate but the authorisation, and no event."""
    index, alarm = register_.find(id=call["id"])
    if alarm and call["authorised"]:
        return ACTED(register_, SUPPRESS_UNTIL, index, alarm, max(signed(call["time"]), alarm["raised_at"]), signed(call["end"]))
    return model.plain(register_, SUPPRESS, call)


# ---- when 34 is given

def later(is_later):
    """Another comparison of an end and a time, as the numbers of their bytes."""
    return lambda: replaced(reading, "is_later", is_later)


def at_field(after):
    """34 is given directly after a field, before what follows it."""
    def value(self, field):
        found = VALUE(self, field)
        self.read_so_far = getattr(self, "read_so_far", {}) | {field: found}
        times = self.read_so_far
        if self.data[0] == SUPPRESS_UNTIL and field == after and not IS_LATER(times["end"], times["time"]):
            self.refuse(NOT_LATER)
        return found
    return lambda: replaced(Call, "value", value)


def in_the_step(is_refused):
    """34 comes after 30, and the register is looked at."""
    def policy(register_, op, call):
        _, alarm = register_.find(id=call["id"])
        if is_refused(signed(call["time"]), signed(call["end"]), alarm):
            raise Refused(NOT_LATER)
        return model.policy(register_, op, call)
    return lambda: together(later(lambda end, time: True)(), replaced(model, "STEPS", model.STEPS | {SUPPRESS_UNTIL: policy}))


def moved(fields):
    """The fields of operation 13 in another order."""
    return lambda: replaced(reading, "FIELDS", reading.FIELDS | {SUPPRESS_UNTIL: tuple(fields.split())})


def own_room(op):
    """The answer slice of this operation need not be longer than the answer."""
    def stepped(register_, call, room):
        if call[:1] == bytes([op]) and room < LEAST_ANSWER:
            answer, changed = STEPPED(register_, call, LEAST_ANSWER)
            if room >= len(answer):
                return answer, changed
            raise Refused(30)
        return STEPPED(register_, call, room)
    return lambda: replaced(model, "stepped", stepped)


# what lists from a fresh register show
WRONG = {
    "an acknowledge keeps the end": kept_by(ACKNOWLEDGE),
    "a plain suppress keeps the end": kept_by(SUPPRESS),
    "an acknowledge with policy keeps the end": kept_by(ACKNOWLEDGE_BY_POLICY),
    "an untimed suppress with policy keeps the end": kept_by(SUPPRESS_BY_POLICY),
    "a clear keeps the end": kept_at_the_end(CLEARED),
    "an expiry keeps the end": kept_at_the_end(EXPIRED),
    "a raise drops the end": updated(lambda alarm, fields: {"end": None}),
    "a raise of another severity drops the end": updated(lambda alarm, fields: {} if fields["severity"] == alarm["severity"] else {"end": None}),
    "a raise after the end lifts": updated(after_its_end),
    "an expiry leaves alarms whose end is later": expiry(lambda alarm, cutoff: alarm["end"] is not None and alarm["end"] > cutoff),
    "an expiry leaves alarms whose end has come": expiry(lambda alarm, cutoff: alarm["end"] is not None and alarm["end"] <= cutoff),
    "a second end is kept if it is earlier": end_after(SUPPRESS_UNTIL, lambda alarm, sent: sent if alarm["end"] is None else min(sent, alarm["end"])),
    "a second end is kept if it is later": end_after(SUPPRESS_UNTIL, lambda alarm, sent: sent if alarm["end"] is None else max(sent, alarm["end"])),
    "a suppressed alarm gets no end": end_after(SUPPRESS_UNTIL, lambda alarm, sent: alarm["end"] if alarm["state"] == SUPPRESSED else sent),
    "an end before raised_at is moved there": end_after(SUPPRESS_UNTIL, lambda alarm, sent: max(sent, alarm["raised_at"])),
    "no end is kept": end_after(SUPPRESS_UNTIL, lambda alarm, sent: None),
    "a full audit chain lets the end be set": stopped(SUPPRESS_UNTIL, [CODE_AUDIT_FAILED], lambda call: signed(call["end"])),
    "a full audit chain lets an untimed suppress remove the end": stopped(SUPPRESS_BY_POLICY, [CODE_AUDIT_FAILED], lambda call: None),
    "an end is set without authorisation": stopped(SUPPRESS_UNTIL, [CODE_UNAUTHORIZED], lambda call: signed(call["end"])),
    "an end is removed without authorisation": stopped(ACKNOWLEDGE, [CODE_UNAUTHORIZED], lambda call: None),
    "13 has no critical gate, and its event is an acknowledge's": as_operation(ACKNOWLEDGE_BY_POLICY),
    "13 is plain": lambda: replaced(model, "STEPS", model.STEPS | {SUPPRESS_UNTIL: as_plain}),
    "no 34": later(lambda end, time: True),
    "34 only for an end before the time": later(lambda end, time: signed(end) >= signed(time)),
    "34 for an end one after the time": later(lambda end, time: signed(end) > signed(time) + 1),
    "34 by numbers without a sign": later(lambda end, time: end > time),
    "34 at the end's field": at_field("end"),
    "34 behind the last field, before bytes left over": at_field("denial"),
    "34 after 30": in_the_step(lambda time, end, alarm: end <= time),
    "34 after NotFound": in_the_step(lambda time, end, alarm: alarm and end <= time),
    "34 by late": in_the_step(lambda time, end, alarm: end <= max(time, alarm["raised_at"] if alarm else time)),
    "the end before the time": moved(f"end time {ACTION}"),
    "the end behind the other fields": moved(f"time {ACTION} end"),
    "a short answer slice for 13": own_room(SUPPRESS_UNTIL),
    "a short answer slice for 14": own_room(LIFT),
}
