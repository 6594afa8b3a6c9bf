"""Wrong ways to measure texts (M-104): each puts something else in the place of a part of the model, for as long as a `with` lasts.

compare/standin.py steps with them in the register's place; compare/test_characters.py tries whether the smallest inputs tell them apart.
"""
import contextlib
import unicodedata

import imports  # noqa: F401  (finds the reading of calls)
import model
import reading
import soundness
from characters import ALARM_LISTS, MOST, MOST_BYTES, RAISE, TOO_MANY
from reading import Call, Refused, characters
from records import WIDTH, alarm_of, alarm_record
from register import Register
from wrong_raises import CHANGE, END, REMEMBER, replaced

POINTS, STRING, VALUE, READ, IS_OF_CHAIN = reading.code_points, Call.string, Call.value, Call.read, soundness.is_of_chain


@contextlib.contextmanager
def together(*ways):
    with contextlib.ExitStack() as stack:
        for way in ways:
            stack.enter_context(way)
        yield


# ---- what is counted, and of which fields

def counted(points):
    return lambda: replaced(reading, "code_points", points)


def without_marks(s):
    return sum(not unicodedata.combining(c) for c in s.decode())


def limits(**most):
    """The most code points of each field that is limited."""
    return lambda: replaced(reading, "MOST_CODE_POINTS", most)


def cut_when_sent():
    """A text that is too long is cut, and not refused."""
    def string(self, name):
        s = STRING(self, name)
        return shortened(s) if name == "text" else s
    return together(limits()(), replaced(Call, "string", string))


# ---- when

def early(is_too_long):
    """The text is judged before its other faults."""
    def string(self, name):
        start = self.at
        if name == "text":
            n = self.number(4)
            s, self.at = self.data[self.at:self.at + n], start
            if len(s) == n and is_too_long(s):
                self.refuse(TOO_MANY)
        return STRING(self, name)
    return lambda: replaced(Call, "string", string)


def in_any_bytes(s):
    """By all bytes that are no tail, in a text that may not be UTF-8."""
    return len(s) <= MOST_BYTES and sum(b & 0xC0 != 0x80 for b in s) > MOST


def of_any_length(s):
    return characters(s) is not None and POINTS(s) > MOST


def after_the_details():
    def value(self, field):
        found = VALUE(self, field)
        if field == "text":
            self.text = found
        if field == "details?" and POINTS(self.text) > MOST:
            self.refuse(TOO_MANY)
        return found
    return together(limits()(), replaced(Call, "value", value))


def after_the_call():
    """Bytes left over are noticed first."""
    def read(self):
        op, values = READ(self)
        if op == RAISE and POINTS(values["text"]) > MOST:
            self.refuse(TOO_MANY)
        return op, values
    return together(limits()(), replaced(Call, "read", read))


def in_the_step(where):
    """The answer's length is looked at first, and some registers let the raise pass."""
    def raise_(register, op, call):
        if POINTS(call["text"]) > MOST and where(register, bool(register.find(key=model.key_of(call))[1])):
            raise Refused(TOO_MANY)
        return model.raise_(register, op, call)
    return lambda: together(limits()(), replaced(model, "STEPS", model.STEPS | {RAISE: raise_}))


def has_room(register):
    return len(register.active) < register.limit("A")


# ---- longer texts that a register holds

def shortened(text):
    return b"".join(characters(text)[:MOST])


def cut(alarm):
    return alarm | {"text": shortened(alarm["text"])}


def unsound_on(*chains):
    def is_of_chain(chain, payload):
        good = IS_OF_CHAIN(chain, payload)
        return good and not (chain in chains and POINTS(alarm_of(bytes(4) + payload)["text"]) > MOST)
    return lambda: replaced(soundness, "is_of_chain", is_of_chain)


def cut_by_an_action():
    return replaced(Register, "change", lambda self, index, alarm, **fields: CHANGE(self, index, cut(alarm), **fields))


def cut_at_the_end():
    return replaced(Register, "end", lambda self, index, alarm, **fields: END(self, index, cut(alarm), **fields))


def cut_in_history():
    return replaced(Register, "remember", lambda self, alarm, _record: REMEMBER(self, cut(alarm), alarm_record(cut(alarm))))


def cut_in_lists():
    def cutting(step):
        def stepped(register, op, call):
            answer = step(register, op, call)
            listed = [answer[at:at + WIDTH] for at in range(16, len(answer), WIDTH)]
            return answer[:16] + b"".join(alarm_record(cut(alarm_of(record))) for record in listed)
        return stepped
    return replaced(model, "STEPS", model.STEPS | {op: cutting(model.STEPS[op]) for op in ALARM_LISTS})


def at_an_update(text):
    """Where a longer text would be replaced."""
    def change(self, index, alarm, **fields):
        if "text" in fields and POINTS(alarm["text"]) > MOST:
            fields |= {"text": text(alarm["text"])}
        return CHANGE(self, index, alarm, **fields)
    return lambda: replaced(Register, "change", change)


def refused(_text):
    raise Refused(TOO_MANY)


# what lists from a fresh register show
WRONG = {
    "no limit": limits(),
    "120 refused": limits(text=119),
    "121 accepted": limits(text=121),
    "bytes counted": counted(len),
    "units of UTF-16 counted": counted(lambda s: len(s.decode().encode("utf-16-le")) // 2),
    "combining marks not counted": counted(without_marks),
    "U+0000 ends the text": counted(lambda s: POINTS(s.partition(b"\0")[0])),
    "U+0000 not counted": counted(lambda s: POINTS(s.replace(b"\0", b""))),
    "counted in one byte": counted(lambda s: POINTS(s) % 256),
    "the reason limited too": limits(text=120, reason=120),
    "the denial limited too": limits(text=120, denial=120),
    "the region limited too": limits(text=120, region=120),
    "cut at 120": cut_when_sent,
    "33 before 26": early(of_any_length),
    "33 before 27": early(in_any_bytes),
    "33 after the details": after_the_details,
    "33 after bytes left over": after_the_call,
    "33 after 30": in_the_step(lambda register, found: True),
    "33 only for a new alarm": in_the_step(lambda register, found: not found),
    "33 only where the raise would be stored": in_the_step(lambda register, found: found or has_room(register)),
}
# what shows only on registers that are given
WRONG_ON_GIVEN = {
    "a stored text limited": unsound_on("active", "history"),
    "a stored text limited on the active chain": unsound_on("active"),
    "a stored text limited on the history chain": unsound_on("history"),
    "a stored text cut by acknowledge and suppress": cut_by_an_action,
    "a stored text cut at a clear and an expiry": cut_at_the_end,
    "a stored text cut in history": cut_in_history,
    "a stored text cut in lists": cut_in_lists,
    "a longer text kept at an answer Updated": at_an_update(lambda text: text),
    "33 for a longer text that is stored": at_an_update(refused),
}
