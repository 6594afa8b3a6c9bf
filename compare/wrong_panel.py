"""Wrong panel blocks (M-102): each way puts something else in the place of a part of compare/panel.py, for as long as a `with` lasts.

compare/standin.py makes blocks so in the register's place; compare/test_panel.py tries whether the smallest inputs tell them apart.
"""
import panel
from headline import ACKNOWLEDGED, SUPPRESSED
from panel import LENGTH, LIT, MASK, NOT_EIGHT_BYTES, NOT_SOUND, SEVERITIES
from records import CHAINS, WIDTH
from soundness import Unsound, is_of_chain, walked
from timed import RAISED, UPDATED, held
from wrong_raises import replaced

CALLED, FLAGS, HIGHEST, MADE, REFUSAL = panel.called, panel.flags, panel.highest, panel.made, panel.refusal


# ---- byte 0

def lit(lights):
    """Other alarms light their lamps."""
    return lambda: replaced(panel, "flags", lambda alarms: FLAGS(alarm | {"state": RAISED if lights(alarm) else SUPPRESSED} for alarm in alarms))


def is_lit(alarm):
    return alarm["state"] in LIT


def flags(wrong):
    """Other flags, by the right ones."""
    return lambda: replaced(panel, "flags", lambda alarms: wrong(FLAGS(alarms)))


def reversed_bits(right):
    return sum(1 << 5 - s for s in range(6) if right >> s & 1)


def looked_at(alarms):
    """Lamps by others than all active alarms; the active length stays."""
    return lambda: replaced(panel, "flags", lambda active: FLAGS(alarms(active)))


# ---- byte 1

def mask(wrong):
    """Another mask, by the former one, place and value."""
    return lambda: replaced(panel, "mask", wrong)


def written(at, value, former):
    return value if at == MASK else former


def cut_to(bits):
    """A place is cut to so many bits."""
    return mask(lambda former, at, value: written(at if at is None else at % 2 ** bits, value, former) & SEVERITIES)


def cleared_where(is_of):
    """Bits 6 and 7 become 0 only at some calls."""
    return mask(lambda former, at, value: written(at, value, former) & (SEVERITIES if is_of(at) else 0xFF))


# ---- bytes 2 to 7

def highest(wrong):
    """Another byte 2, by flags and mask."""
    return lambda: replaced(panel, "highest", wrong)


def block(change):
    """Another block than the right one, by it and the active alarms."""
    def made(alarms, let_through):
        found = bytearray(MADE(alarms, let_through))
        change(found, alarms)
        return bytes(found)
    return lambda: replaced(panel, "made", made)


def lamp(of):
    """Byte 3 by the block."""
    def change(found, alarms):
        found[3] = of(found)
    return block(change)


def length(of):
    """Bytes 4 to 7 by the active alarms."""
    def change(found, alarms):
        found[4:] = of(alarms)
    return block(change)


def u32(n):
    return n.to_bytes(4, "big")


# ---- the call

def behind(change):
    """Something more is done behind a call: by number, register, the block before and after, place and value. It gives number and length."""
    def called(register, block_, at=None, value=0):
        former = bytes(block_)
        number_, _ = CALLED(register, block_, at, value)
        return change(number_, register, former, block_, at, value) or (number_, 0)
    return lambda: replaced(panel, "called", called)


def stored(*places):
    """A write to one of these places is stored behind the call."""
    def change(number_, register, former, found, at, value):
        if number_ == 0 and at in places:
            found[at] = value
    return behind(change)


def answered(change):
    """Something more is done to the block of a call that is answered."""
    def go(number_, register, former, found, at, value):
        if number_ == 0:
            change(register, former, found, at, value)
    return behind(go)


def on_refusal(change):
    """Something is done to the block of a call that is refused."""
    def go(number_, register, former, found, at, value):
        if number_:
            change(found)
    return behind(go)


def clear_mask(found):
    if len(found) > 1:
        found[MASK] &= SEVERITIES


def zeroed(found):
    found[:] = bytes(len(found))


def show(found, let_through):
    """Bytes 2 and 3 by the flags and this mask."""
    found[2] = HIGHEST(found[0], let_through)
    found[3] = int(found[2] != 0)


def at_the_next_call(register, former, found, at, value):
    """A write of the mask is stored, and counts at the next call."""
    if at == MASK:
        show(found, former[MASK] & SEVERITIES)


def latched(register, former, found, at, value):
    """Flags that were lit stay."""
    found[0] |= former[0] & SEVERITIES
    show(found, found[MASK])


def with_history(register, former, found, at, value):
    """Entries of history light lamps too."""
    found[0] |= FLAGS(alarm for _, alarm in held(register).history)
    show(found, found[MASK])


def no_alarm_left(register, former, found, at, value):
    if not any(found[4:]):
        found[:] = former


def other_writes_left(register, former, found, at, value):
    if at not in (None, MASK):
        found[:] = former


def register_written(register, former, found, at, value):
    register[-1] ^= 1


def behind_the_block(number_, register, former, found, at, value):
    """A write behind the block is refused."""
    if number_ == 0 and at is not None and at >= LENGTH:
        found[:] = former
        return NOT_EIGHT_BYTES, 0
    return None


def accepted(size):
    """A block of this length is used as far as it goes."""
    def called(register, block_, at=None, value=0):
        part = bytearray((bytes(block_) + bytes(LENGTH))[:LENGTH])
        if len(block_) != size:
            return CALLED(register, block_, at, value)
        number_, length_ = CALLED(register, part, at, value)
        block_[:LENGTH] = part[:size]
        return number_, length_
    return lambda: replaced(panel, "called", called)


def refusals(wrong):
    """Other refusals: by the right one and the block's length."""
    return lambda: replaced(panel, "refusal", lambda chains, block_: wrong(REFUSAL(chains, block_), len(block_)))


def checked(*names):
    """Of the records, only those on these chains are checked."""
    def sound_chains(register):
        data = bytes(register)
        try:
            chains = walked(data)
        except Unsound:
            return None
        records = [(name, index) for name, indices in zip(CHAINS, chains) for index in indices if name in names]
        return chains if all(is_of_chain(name, data[WIDTH * index + 4:WIDTH * (index + 1)]) for name, index in records) else None
    return lambda: replaced(panel, "sound_chains", sound_chains)


FLAGS_WRONG = {
    "acknowledged alarms lit": lit(lambda alarm: alarm["state"] in (*LIT, ACKNOWLEDGED)),
    "suppressed alarms lit": lit(lambda alarm: alarm["state"] in (*LIT, SUPPRESSED)),
    "alarms suppressed until a time lit": lit(lambda alarm: is_lit(alarm) or alarm["end"] is not None),
    "suppressed alarms that are raised again lit": lit(lambda alarm: is_lit(alarm) or alarm["state"] == SUPPRESSED and alarm["raises"] > 1),
    "only raised alarms lit": lit(lambda alarm: alarm["state"] == RAISED),
    "only updated alarms lit": lit(lambda alarm: alarm["state"] == UPDATED),
    "lifted alarms not lit": lit(lambda alarm: is_lit(alarm) and (alarm["state"], alarm["raises"]) != (UPDATED, 1)),
    "history lit": answered(with_history),
    "only the first active alarm lit": looked_at(lambda alarms: alarms[:1]),
    "only the last active alarm lit": looked_at(lambda alarms: alarms[-1:]),
    "severity 0 not lit": flags(lambda right: right & ~1),
    "critical alarms not lit": flags(lambda right: right & 0x1F),
    "only the highest severity lit": flags(lambda right: 1 << right.bit_length() >> 1),
    "a bit further up": flags(lambda right: right << 1),
    "bits from the other end": flags(reversed_bits),
    "flags once lit stay": answered(latched),
}
MASKS_WRONG = {
    "no bit of the mask cleared": cleared_where(lambda at: False),
    "bit 6 kept": mask(lambda former, at, value: written(at, value, former) & 0x7F),
    "bit 5 cleared too": mask(lambda former, at, value: written(at, value, former) & 0x1F),
    "the mask not cleared at a look": cleared_where(lambda at: at is not None),
    "the mask not cleared at a write of another byte": cleared_where(lambda at: at is None or at == MASK),
    "the value written not cleared": cleared_where(lambda at: at != MASK),
    "a look takes the mask away": mask(lambda former, at, value: 0 if at is None else written(at, value, former) & SEVERITIES),
    "a write to any byte is one of the mask": mask(lambda former, at, value: (former if at is None else value) & SEVERITIES),
    "a write to a byte behind the block is one of the mask":
        mask(lambda former, at, value: (value if at is not None and (at == MASK or at >= LENGTH) else former) & SEVERITIES),
    "no write of the mask": mask(lambda former, at, value: former & SEVERITIES),
    "a write adds to the mask": mask(lambda former, at, value: (former | value if at == MASK else former) & SEVERITIES),
    "the place cut to a byte": cut_to(8),
    "the place cut to three bits": cut_to(3),
    "the place cut to two bytes": cut_to(16),
    "a write of the mask counts at the next call": answered(at_the_next_call),
}
BYTES_WRONG = {
    "flags after the mask": block(lambda found, alarms: found.__setitem__(0, found[0] & found[1])),
    "the highest bit of the mask alone": highest(lambda lit_, through: through.bit_length()),
    "the highest flag alone": highest(lambda lit_, through: lit_.bit_length()),
    "the highest flag, then the mask": highest(lambda lit_, through: lit_.bit_length() if lit_ & through & 1 << lit_.bit_length() >> 1 else 0),
    "the number itself": highest(lambda lit_, through: max(HIGHEST(lit_, through) - 1, 0)),
    "the lowest flag": highest(lambda lit_, through: HIGHEST(lit_ & through & -(lit_ & through), 0xFF)),
    "how many flags": highest(lambda lit_, through: (lit_ & through).bit_count()),
    "the leading zeros themselves": highest(lambda lit_, through: 8 - HIGHEST(lit_, through)),
    "a mask bit hides": highest(lambda lit_, through: HIGHEST(lit_, ~through & SEVERITIES)),
    "byte 3 follows byte 0": lamp(lambda found: int(found[0] != 0)),
    "byte 3 is byte 2": lamp(lambda found: found[2]),
    "byte 3 is 255": lamp(lambda found: 255 * (found[2] != 0)),
    "byte 3 always 1": lamp(lambda found: 1),
    "byte 3 only above severity 0": lamp(lambda found: int(found[2] > 1)),
    "the active length without suppressed alarms": length(lambda alarms: u32(sum(alarm["state"] != SUPPRESSED for alarm in alarms))),
    "the active length without acknowledged alarms": length(lambda alarms: u32(sum(alarm["state"] != ACKNOWLEDGED for alarm in alarms))),
    "the active length little-endian": length(lambda alarms: len(alarms).to_bytes(4, "little")),
    "the active length in two bytes": length(lambda alarms: len(alarms).to_bytes(2, "big") + bytes(2)),
    "the active length in one byte": length(lambda alarms: u32(len(alarms) % 256)),
}
CALLS_WRONG = {
    **{f"a write to byte {at} stored": stored(at) for at in (0, 2, 3)},
    "a write to the active length stored": stored(4, 5, 6, 7),
    "a write to another byte does nothing": answered(other_writes_left),
    "a write behind the block refused with 30": behind(behind_the_block),
    "30 before 22": refusals(lambda right, size: NOT_EIGHT_BYTES if size != LENGTH else right),
    "30 in the place of 22": refusals(lambda right, size: NOT_EIGHT_BYTES if right == NOT_SOUND else right),
    "22 in the place of 30": refusals(lambda right, size: NOT_SOUND if right else 0),
    "nine bytes accepted": accepted(9),
    "seven bytes accepted": accepted(7),
    "the mask cleared on a refusal": on_refusal(clear_mask),
    "the block zeroed on a refusal": on_refusal(zeroed),
    "an unsound register passes, and its block stays": behind(lambda number_, *rest: (0 if number_ == NOT_SOUND else number_, 0)),
    "no record is checked": checked(),
    "only active alarms are checked": checked("active"),
    "only alarms are checked": checked("active", "history"),
    "free records are not checked": checked("active", "history", "audit"),
    "the length is 8": behind(lambda number_, *rest: (number_, 0 if number_ else LENGTH)),
    "the length is 8 on a refusal": behind(lambda number_, *rest: (number_, LENGTH if number_ else 0)),
    "the length is not set": behind(lambda number_, *rest: (number_, 2**64 - 1)),
    "the block made only where an alarm is active": answered(no_alarm_left),
    "the register written": answered(register_written),
}
WRONG = FLAGS_WRONG | MASKS_WRONG | BYTES_WRONG | CALLS_WRONG
