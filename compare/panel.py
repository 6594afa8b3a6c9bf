"""The panel block that a lamp card reads: M-102 of document 02, from its sentences and docs/layout.json alone.

`called` does what the library's `alarm_panel_look` and `alarm_panel_write` do: it makes the block anew in place, and gives the number and the
length. The register is only read.
"""
from records import alarm_of, unlinked
from soundness import sound_chains

LENGTH = 8
MASK = 1  # the byte that the card may write
LIT = (0, 1)  # the states raised and updated
SEVERITIES = 0x3F  # "bits 6 and 7 become 0"
NOT_SOUND, NOT_EIGHT_BYTES = 22, 30


# ---- the bytes

def flags(alarms):
    """Byte 0: bit s is 1 exactly if an active alarm of severity s is raised or updated."""
    found = 0
    for alarm in alarms:
        if alarm["state"] in LIT:
            found |= 1 << alarm["severity"]
    return found


def mask(former, at, value):
    """Byte 1: the former one, or the value of a write to it; bits 6 and 7 become 0 at every call."""
    return (value if at == MASK else former) & SEVERITIES


def highest(lit, let_through):
    """Byte 2: one more than the number of the highest flag that is set in both, or 0."""
    return max((s + 1 for s in range(8) if lit >> s & let_through >> s & 1), default=0)


def made(alarms, let_through):
    """The block of these active alarms with this mask."""
    lit = flags(alarms)
    number = highest(lit, let_through)
    return bytes([lit, let_through, number, 1 if number != 0 else 0]) + len(alarms).to_bytes(4, "big")


# ---- a call

def refusal(chains, block):
    """22 where the register is not sound, then 30 for a block not of eight bytes; 0 for neither."""
    return NOT_SOUND if chains is None else NOT_EIGHT_BYTES if len(block) != LENGTH else 0


def active(register, chains):
    """The alarms on the active chain."""
    data = bytes(register)
    return [alarm_of(unlinked(data, index)) for index in chains[0]]


def called(register, block, at=None, value=0):
    """A look, or a write of a value to a byte. A refusal leaves the block as it is."""
    chains = sound_chains(register)
    number = refusal(chains, block)
    if number == 0:
        block[:] = made(active(register, chains), mask(block[MASK], at, value))
    return number, 0
