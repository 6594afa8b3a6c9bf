"""What a run must meet of suppressions until a time (M-105 of document 02): kinds of calls that set, keep, remove and lift ends."""
import imports  # noqa: F401  (finds the reading of calls)
import end_kinds
import lift_kinds
from orders import Given, Step
from reading import Call, Refused
from timed import LIFT, NOT_SOUND, TOO_SHORT, CallMet, held, is_timed

KINDS = end_kinds.TIMES | end_kinds.SUPPRESSIONS | end_kinds.OTHERS
LIFTED = "lifted: {}"
TOO_SHORT_LIFT = LIFTED.format("30")
FROM_OPENING = [*KINDS, *map(LIFTED.format, lift_kinds.LIFTS), TOO_SHORT_LIFT]
# no list from a fresh register comes to these
ON_BYTES = [*map(LIFTED.format, lift_kinds.LIFTS_ON_BYTES), *lift_kinds.UNSOUND.values()]


def fields_of(data):
    """The fields of a call; none where one has a fault."""
    try:
        return Call(data).read()[1]
    except Refused:
        return {}


def call_kinds(call):
    """The kinds of a call on a sound register."""
    yield from (name for name, is_of in KINDS.items() if is_of(call))
    lift = lift_kinds.lift_of(call)
    if lift:
        yield from (LIFTED.format(name) for name, is_of in (lift_kinds.LIFTS | lift_kinds.LIFTS_ON_BYTES).items() if is_of(lift))
    if call.op == LIFT and call.number == TOO_SHORT:
        yield TOO_SHORT_LIFT


def tallied(name):
    return f"ends: {name}"


class Met:
    """Counts the kinds of a list's calls, if it has such of operations 13 and 14, or registers that are given."""

    def __init__(self, tally, orders):
        self.tally, self.held = tally, None
        self.follows = any(isinstance(order, Given) or isinstance(order, Step) and is_timed(order.call) for order in orders)

    def see(self, order, outcome):
        if not self.follows:
            return
        if not isinstance(order, Step):
            self.held = held(outcome.register)
        elif outcome.number == NOT_SOUND:
            self.tally.update(tallied(lift_kinds.UNSOUND[found]) for found in set(lift_kinds.wrong_ends(outcome.register)))
        elif order.call and self.held:
            before = self.held
            self.held = held(outcome.register) if outcome.number == 0 else before
            self.tally.update(map(tallied, call_kinds(called(order, outcome, before, self.held))))


def called(order, outcome, before, after):
    code = 0 if outcome.number else outcome.answer[0]
    told, body = int.from_bytes(outcome.answer[8:16], "big") if code else 0, bytes(outcome.answer[16:outcome.length])
    return CallMet(order.call, order.room, fields_of(order.call), outcome.number, code, told, body, before, after)


def missing(tally, names):
    return [f"no {tallied(name)}" for name in names if not tally[tallied(name)]]


def unmet(tally, on_bytes):
    """The kinds that a run must meet and did not; some are met only on given registers."""
    return missing(tally, FROM_OPENING + (ON_BYTES if on_bytes else []))
