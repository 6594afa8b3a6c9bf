"""What a run must meet of panel blocks (M-102 of document 02): kinds of alarms, of masks, of writes and of refusals; and which flags and which
active length a block has by active alarms as the oracle prints them. The model has a reading of its own, compare/panel.py."""
from typing import NamedTuple

from headline import ACKNOWLEDGED, SUPPRESSED, WITH_RUST
from orders import Panel, Step
from timed import LIFT, RAISED, UPDATED, held

SEVERITIES = range(6)
NO_SEVERITY = 0xC0  # bits 6 and 7
NOT_SOUND, NOT_EIGHT_BYTES = 22, 30
MOST = 4294967295


# ---- beside the Rust

def by_alarms(active):
    """Flags and active length of the block of these active alarms."""
    flagged = {alarm["severity"] for alarm in active if alarm["state"] not in (ACKNOWLEDGED, SUPPRESSED)}
    return sum(2 ** severity for severity in flagged), len(active)


def rust_fault(tally, active, outcome):
    """What of a block is not by the Rust's own active alarms, as text; None where all is, and where the call is refused."""
    if outcome.number:
        return None
    count_alarms(tally, active, WITH_RUST)
    found = outcome.answer[0], int.from_bytes(outcome.answer[4:], "big")
    return None if found == by_alarms(active) else f"flags and active length {found}, by the Rust {by_alarms(active)}"


# ---- kinds of alarms

def lit_by(state):
    """An alarm in this state lights its lamp, and no alarm in another state does."""
    def is_of(active):
        lit = {(alarm["severity"], alarm["state"]) for alarm in active if alarm["state"] in (RAISED, UPDATED)}
        return any(each == state and (severity, RAISED + UPDATED - state) not in lit for severity, each in lit)
    return is_of


def dark(is_so):
    """An alarm of this kind has a severity whose lamp is dark."""
    return lambda active: any(is_so(alarm) and not by_alarms(active)[0] >> alarm["severity"] & 1 for alarm in active)


def lit(severity):
    return lambda active: by_alarms(active)[0] >> severity & 1


ALARMS = {
    "no alarm": lambda active: not active,
    **{f"severity {severity} lit": lit(severity) for severity in SEVERITIES},
    "lit by a raised alarm": lit_by(RAISED),
    "lit by an updated alarm": lit_by(UPDATED),
    "several severities lit": lambda active: by_alarms(active)[0].bit_count() > 1,
    "an acknowledged alarm not lit": dark(lambda alarm: alarm["state"] == ACKNOWLEDGED),
    "a suppressed alarm not lit": dark(lambda alarm: alarm["state"] == SUPPRESSED),
    "all active alarms dark": lambda active: active and not by_alarms(active)[0],
    "lit and dark alarms in the active length": lambda active: by_alarms(active)[0] and not {alarm["state"] for alarm in active} <= {RAISED, UPDATED},
}


# ---- kinds of calls

class CallMet(NamedTuple):
    """An answered panel call: the place and the byte of a write, the block before and after it; the active alarms and the entries of history;
    the indices of alarms that a lift has lit since the panel call before."""
    at: int
    value: int
    former: bytes
    block: bytes
    active: dict
    history: list
    lifted: set

    @property
    def flags(self):
        return self.block[0]

    @property
    def mask(self):
        return self.block[1]


def dark_with(is_so):
    return lambda call: dark(is_so)(call.active.values())


def ended(call):
    """History has an entry of an alarm that was raised or updated, and its lamp is dark."""
    return any(entry["state"] in (RAISED, UPDATED) and not call.flags >> entry["severity"] & 1 for _, entry in call.history)


def cleared_at(is_of):
    """Bits 6 and 7 of the mask were both set."""
    return lambda call: is_of(call.at) and (call.value if call.at == 1 else call.former[1]) & NO_SEVERITY == NO_SEVERITY


def counts_at_once(call):
    """A write of the mask shows another flag than the former mask would."""
    return call.at == 1 and (call.flags & call.former[1]).bit_length() != call.block[2]


def dropped(at):
    """A write to a place within the block whose value is not what the byte becomes."""
    return lambda call: call.at == at and call.value != call.block[at]


def not_the_mask(at):
    """A write to a place behind the block whose value would be another mask."""
    return lambda call: call.at == at and call.value & 0x3F != call.mask


CALLS = {
    "severity 0 alone lit": lambda call: call.block[:4] == bytes([1, call.mask, 1, 1]),
    "an alarm suppressed until a time not lit": dark_with(lambda alarm: alarm["end"] is not None),
    "a suppressed alarm that is raised again not lit": dark_with(lambda alarm: alarm["state"] == SUPPRESSED and alarm["raises"] > 1),
    "lit again by a lift": lambda call: call.lifted,
    "an alarm in history alone not lit": ended,
    "more than 255 active alarms": lambda call: len(call.active) > 255,
    "mask 0 before flags": lambda call: call.flags and not call.mask,
    "no flag let through by a mask": lambda call: call.flags and call.mask and not call.flags & call.mask,
    "the highest flag hidden, a lower one shown": lambda call: call.flags.bit_length() > call.block[2] > 0,
    "a mask beyond the highest flag": lambda call: call.mask.bit_length() > call.flags.bit_length() > 0,
    "several flags let through": lambda call: (call.flags & call.mask).bit_count() > 1,
    "bits 6 and 7 become 0 at a look": cleared_at(lambda at: at is None),
    "bits 6 and 7 become 0 at a write of the mask": cleared_at(lambda at: at == 1),
    "bits 6 and 7 become 0 at a write of another byte": cleared_at(lambda at: at in (0, *range(2, 8))),
    "bits 6 and 7 become 0 at a write behind the block": cleared_at(lambda at: at is not None and at > 7),
    "a write of the mask counts at once": counts_at_once,
    **{f"a write to byte {at} is dropped": dropped(at) for at in (0, *range(2, 8))},
    **{f"a write to byte {at} is dropped": not_the_mask(at) for at in (8, 9, 257, 65537, MOST)},
    "every former byte but the mask is another": lambda call: all(call.former[i] != call.block[i] for i in (0, *range(2, 8))),
    "the former block is made anew where no alarm is active": lambda call: not call.active and call.former != call.block,
    "a block that is already so": lambda call: call.former == call.block,
}
LEFT = "a block that the call before left"


def refused(number, size, is_write=False):
    """A refusal of a block of this length, with bits 6 and 7 in its mask, or in the value that is written there."""
    def is_of(order, former, outcome):
        if outcome.number != number or len(former) != size or (order.at == 1) != is_write:
            return False
        return size < 2 or (order.value if is_write else former[1]) & NO_SEVERITY == NO_SEVERITY
    return is_of


REFUSALS = {f"{number} with {size} bytes{' at a write of the mask' * is_write}": refused(number, size, is_write)
            for number, sizes in ((NOT_SOUND, (0, 7, 8, 9)), (NOT_EIGHT_BYTES, (0, 1, 7, 9))) for size in sizes for is_write in (False, True)}
TWINS = "lit blocks of twins whose texts differ"


# ---- what is met

def tallied(name, by=""):
    return f"panel blocks{by}: {name}"


def count_alarms(tally, active, by=""):
    """Counts the kinds of the block of these active alarms."""
    tally.update(tallied(name, by) for name, is_of in ALARMS.items() if is_of(active))


def count_twins(tally, one, other):
    """Counts the blocks of an order of twin lists that show something: an alarm is lit, and the registers differ."""
    tally[tallied(TWINS)] += bool(one.number == 0 and one.answer[0] and one.register != other.register)


class Met:
    """Counts the kinds of a list's panel calls."""

    def __init__(self, tally):
        self.tally, self.block, self.timed, self.ops = tally, b"", set(), []

    def see(self, order, outcome):
        """Between panel calls, which operations were answered."""
        if isinstance(order, Panel):
            self.tally["panel calls"] += 1
            former = self.block if order.block is None else order.block
            self.block = bytes(outcome.answer)
            self.tally.update(map(tallied, self.kinds(order, former, outcome)))
        elif not isinstance(order, Step):
            self.timed = set()
        elif outcome.number == 0:
            self.ops.append(order.call[0])

    def kinds(self, order, former, outcome):
        if outcome.number:
            yield from (name for name, is_of in REFUSALS.items() if is_of(order, former, outcome))
            return
        found = held(outcome.register)
        lifted = {index for index in self.timed if self.ops == [LIFT] and found.active[index]["state"] == UPDATED}
        self.timed, self.ops = {index for index, alarm in found.active.items() if alarm["end"] is not None}, []
        call = CallMet(order.at, order.value, former, self.block, found.active, found.history, lifted)
        count_alarms(self.tally, list(found.active.values()))
        yield from (name for name, is_of in CALLS.items() if is_of(call))
        if order.block is None:
            yield LEFT


NAMES = [*ALARMS, *CALLS, LEFT, *REFUSALS]


def missing(tally, names, by=""):
    return [f"no {tallied(name, by)}" for name in names if not tally[tallied(name, by)]]


def unmet(tally, by_rust):
    """The kinds that a run must meet and did not."""
    return missing(tally, [*NAMES, TWINS]) + (missing(tally, ALARMS, WITH_RUST) if by_rust else [])
