"""Kinds of calls that set, keep, show and remove the end of a suppression (M-105 of document 02); compare/lift_kinds.py has those that lift it.

A kind is a name, with what is true of a call of this kind (CallMet of compare/timed.py).
"""
import imports  # noqa: F401  (finds the reading of calls)
from headline import ACKNOWLEDGED, SUPPRESSED
from reading import Call, Refused
from records import time_at
from timed import (ACKNOWLEDGE, ACKNOWLEDGE_BY_POLICY, ACTIVE, CLEAR, EXPIRE, HISTORY, LATEST, LENGTH, NOT_LATER, POLICY, RAISE, RAISED, SUPPRESS,
                   SUPPRESS_BY_POLICY, SUPPRESS_UNTIL, TOO_SHORT, UPDATED)

ANSWERS_UPDATED, ANSWERS_SUPPRESSED, ANSWERS_UNAUTHORIZED, ANSWERS_AUDIT_FAILED, ANSWERS_NOT_FOUND = 2, 6, 8, 9, 10  # codes
CRITICAL_MESSAGE = b"security-critical"  # how the message of the critical gate begins
ROOM = 1552


# ---- operation 13: its end beside its time

def times(call):
    """Time and end of operation 13, signed, and as the numbers of their bytes; None where the call has not both."""
    if call.op != SUPPRESS_UNTIL or len(call.data) < 17:
        return None
    return time_at(call.data, 1), time_at(call.data, 9), call.data[1:9], call.data[9:17]


def refused(is_of):
    """Refused with 34, with a time and an end like these."""
    return lambda call: call.number == NOT_LATER and is_of(*times(call))


def answered(is_of):
    return lambda call: call.op == SUPPRESS_UNTIL and call.number == 0 and is_of(*times(call))


def before_34(is_of):
    """Refused with another number, though the end is not later."""
    return lambda call: times(call) and times(call)[1] <= times(call)[0] and is_of(call)


def left_over(call):
    """Whether nothing but bytes left over is wrong before 34."""
    try:
        Call(call.data).read()
    except Refused as refusal:
        return refusal.args == (LENGTH, "left over")
    return False


TIMES = {
    "34, the end is the call's time": refused(lambda time, end, *_: end == time),
    "34, the end is one before the call's time": refused(lambda time, end, *_: end == time - 1),
    "34 by the signs": refused(lambda time, end, one, other: other > one),
    "34 at the latest time": refused(lambda time, end, *_: time == LATEST),
    "34 before 30": lambda call: call.number == NOT_LATER and call.room < ROOM,
    "bytes left over before 34": before_34(lambda call: call.number == LENGTH and left_over(call)),
    "another field's fault before 34": before_34(lambda call: call.number in (25, 26, 27)),
    "30, the end is later": lambda call: call.op == SUPPRESS_UNTIL and call.number == TOO_SHORT,
    "an end one after the call's time, answered": answered(lambda time, end, *_: end == time + 1),
    "a later end by the signs, answered": answered(lambda time, end, one, other: other < one),
}


# ---- operation 13: what it meets

def suppressed(is_of):
    """Answered Suppressed, by what the alarm was before and by its new end."""
    return lambda call: call.op == SUPPRESS_UNTIL and call.code == ANSWERS_SUPPRESSED and is_of(call.target(), time_at(call.data, 9))


def from_state(state):
    return suppressed(lambda alarm, end: alarm["state"] == state and alarm["end"] is None)


def new_end(is_of):
    return suppressed(lambda alarm, end: alarm["end"] is not None and is_of(alarm["end"], end))


def left(code, *ops):
    """Answered so, and an end is there and stays."""
    def is_of(call):
        return call.op in ops and call.code == code and call.target() and call.target()["end"] is not None and not call.changed()
    return is_of


def unauthorized(critical):
    return lambda call: call.op == SUPPRESS_UNTIL and call.code == ANSWERS_UNAUTHORIZED and (CRITICAL_MESSAGE in call.body) == critical


SUPPRESSIONS = {
    "of a raised alarm": from_state(RAISED),
    "of an updated alarm": from_state(UPDATED),
    "of an acknowledged alarm": from_state(ACKNOWLEDGED),
    "of a suppressed alarm without an end": from_state(SUPPRESSED),
    "an earlier end in the place of an end": new_end(lambda old, new: new < old),
    "the same end again": new_end(lambda old, new: new == old),
    "a later end in the place of an end": new_end(lambda old, new: new > old),
    "an end not after raised_at": suppressed(lambda alarm, end: end <= alarm["raised_at"]),
    "stopped by the critical gate": unauthorized(True),
    "not authorised": unauthorized(False),
    "the audit chain is full": lambda call: call.op == SUPPRESS_UNTIL and call.code == ANSWERS_AUDIT_FAILED,
    "an unknown id": lambda call: call.op == SUPPRESS_UNTIL and call.code == ANSWERS_NOT_FOUND,
    "an end left by a policy call that is not authorised": left(ANSWERS_UNAUTHORIZED, *POLICY),
    "an end left where the audit chain is full": left(ANSWERS_AUDIT_FAILED, *POLICY),
}


# ---- what other operations do to an end

def removed(op):
    return lambda call: call.op == op and any(old["end"] is not None and new["end"] is None for old, new in call.changed())


def left_plain(call):
    """Plain calls that are not authorised do not look at the alarm."""
    return call.op in (ACKNOWLEDGE, SUPPRESS) and call.code == ANSWERS_UNAUTHORIZED and call.target() and call.target()["end"] is not None


def raised(is_of):
    """An answer Updated for an alarm with an end, by the alarm before and after it, and the call's time."""
    def is_raised(call):
        if call.op != RAISE or call.code != ANSWERS_UPDATED:
            return False
        time = time_at(call.data, 1)
        return any(old["end"] is not None and new["end"] == old["end"] and is_of(old, new, time) for old, new in call.changed())
    return is_raised


def expired(is_of):
    return lambda call: call.op == EXPIRE and any(is_of(alarm["end"], time_at(call.data, 1)) for alarm in call.ended_with_end())


def overwritten(is_of):
    return lambda call: call.overwritten() and is_of(*(entry["end"] for entry in call.overwritten()))


def shown(op, chain):
    return lambda call: call.op == op and call.number == 0 and any(alarm["end"] is not None for alarm in chain(call.before))


OTHERS = {
    "an end removed by an acknowledge": removed(ACKNOWLEDGE),
    "an end removed by a plain suppress": removed(SUPPRESS),
    "an end removed by an acknowledge with policy": removed(ACKNOWLEDGE_BY_POLICY),
    "an end removed by an untimed suppress with policy": removed(SUPPRESS_BY_POLICY),
    "an end left by a plain call that is not authorised": left_plain,
    "cleared with an end": lambda call: call.op == CLEAR and call.ended_with_end(),
    "expired before its end": expired(lambda end, cutoff: end > cutoff),
    "expired after its end": expired(lambda end, cutoff: end <= cutoff),
    "raised before its end": raised(lambda old, new, time: time < old["end"]),
    "raised at or after its end": raised(lambda old, new, time: time >= old["end"]),
    "raised with another severity": raised(lambda old, new, time: old["severity"] != new["severity"]),
    "an entry overwritten by one with another end": overwritten(lambda old, new: None not in (old, new) and old != new),
    "an entry with an end overwritten by one without": overwritten(lambda old, new: old is not None and new is None),
    "an entry without an end overwritten by one with it": overwritten(lambda old, new: old is None and new is not None),
    "an end listed": shown(ACTIVE, lambda before: before.active.values()),
    "an end listed from history": shown(HISTORY, lambda before: [alarm for _, alarm in before.history]),
}
