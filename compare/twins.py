"""Twin lists: document 01's section "Lists", with document 02's M-104, and not from the definition.

Two lists have equally many orders. At each place they are equal, or both are raises with equal answer lengths, each field read without a
fault and equal outside text and details: differing texts then meet both limits, since more than 120 code points are a fault of the field
(docs/DECISIONS.md has how M-104 is read). Bytes left over are no field's fault. Registers and answers are then equal outside both fields, and
panel blocks in every byte: no text can light a lamp (M-102).
"""
import imports  # noqa: F401  (finds the reading of calls)
from orders import Panel, Step
from reading import FIELDS, Call, Refused
from records import WIDTH, alarm_of, alarm_record, unlinked
from soundness import sound_chains

RAISE = b"\1"  # the operation byte
MASKED = {"text": b"", "details": None}
ALARM_CODES, ALARM_LISTS = (1, 2, 6, 7), (8, 9)  # answers that hold alarms


# ---- two lists

def fields_of(order):
    """The fields of a raise that are all read without a fault, with the bytes left over; None for any other order."""
    if not isinstance(order, Step) or order.call[:1] != RAISE:
        return None
    reader = Call(order.call)
    reader.raised = reader.number(1) == RAISE[0]
    try:
        found = {field.removesuffix("?"): reader.value(field) for field in FIELDS[RAISE[0]]}
    except Refused:
        return None
    return found | {"left over": order.call[reader.at:]}


def are_twins(one, other):
    """Whether two orders may stand at one place of twin lists."""
    if one == other:
        return True
    fields, others = fields_of(one), fields_of(other)
    return bool(fields and others) and one[1:] == other[1:] and fields | MASKED == others | MASKED


# ---- the law

def masked(record):
    """An alarm's record with text and details taken as zero."""
    return alarm_record(alarm_of(record) | MASKED)


def masked_register(register):
    register, chains = bytearray(register), sound_chains(register)
    for index in chains[0] + chains[1] if chains else []:
        register[WIDTH * index + 4:WIDTH * (index + 1)] = masked(unlinked(register, index))[4:]
    return register


def masked_answer(call, outcome):
    answer = bytearray(outcome.answer)
    if outcome.number == 0 and (call[0] in ALARM_LISTS or answer[0] in ALARM_CODES):
        for at in range(16, outcome.length, WIDTH):
            answer[at:at + WIDTH] = masked(bytes(answer[at:at + WIDTH]))
    return answer


def differ(order, one, other):
    """What of two outcomes of an order is not as twins have it, as text; None where all is."""
    if one[:2] != other[:2]:
        return f"twins: number and length {one[:2]} and {other[:2]}"
    if isinstance(order, Step) and masked_answer(order.call, one) != masked_answer(order.call, other):
        return "twins: answers differ outside text and details"
    if isinstance(order, Panel) and one.answer != other.answer:
        return f"twins: panel blocks {one.answer.hex()} and {other.answer.hex()}"
    if masked_register(one.register) != masked_register(other.register):
        return "twins: registers differ outside text and details"
    return None


class Twins:
    """The law on two lists, order by order; `met` is told the two texts of each raise that is answered, `blocks` the outcomes of each panel call.

    Lists that are no twins: ValueError.
    """

    def __init__(self, orders, others, met, blocks):
        self.pairs, self.met, self.blocks = list(zip(orders, others, strict=True)), met, blocks
        for place, (one, other) in enumerate(self.pairs):
            if not are_twins(one, other):
                raise ValueError(f"no twins: order {place}")
        self.places = iter(self.pairs)

    def fault(self, order, one, other):
        fields, others = map(fields_of, next(self.places))
        if fields and one.number == other.number == 0:
            self.met(fields["text"], others["text"])
        if isinstance(order, Panel):
            self.blocks(one, other)
        return differ(order, one, other)
