"""What a call says, read from document 01's sections "The call enters" and "Cause names" and document 02's M-104 and
M-105, and from nothing else here.

`Call(call).read()` gives the operation and the values of its fields: a number (a time as the unsigned number of its eight
bytes), the bytes of a string, None for an absent one; an object is its kind and its parts, a scope its number and its
string. `line(call)` is the line for a call's bytes: `refused N`, or the operation's name and all fields in order. A number is
decimal, a time too, as the unsigned number of its eight bytes. A string is `x` and its bytes in lower-case hexadecimal
digits; an absent one is `-`. A cause is in its stored form. An object is its kind and its strings, kind 8's queue last; a
scope is its number and its string.
"""
import functools

# ---- the table of operations; "?" marks an optional string

ACTION = "id principal tenant? reason scope correlation? critical-allowed authorised denial"
POLICY = f"time {ACTION}"
OPERATIONS = {
    1: ("raise", "time id type severity cause object tenant? slice? region? text details?"),
    2: ("clear", "time type cause object tenant? slice? region?"),
    3: ("acknowledge", "time id authorised"),
    4: ("suppress", "time id authorised"),
    5: ("acknowledge-policy", POLICY),
    6: ("suppress-policy", POLICY),
    7: ("expire", "time"),
    8: ("active", "severity-or-all"),
    9: ("history", "tenant? slice?"),
    10: ("counts", ""),
    11: ("summary", ""),
    12: ("take-audit", "n"),
    # "Operation 13 is operation 6 with one more field, an end time, directly after the call's time" (M-105)
    13: ("suppress-until", f"time end {ACTION}"),
    14: ("lift", "time"),
}
FIELDS = {op: tuple(fields.split()) for op, (_, fields) in OPERATIONS.items()}

# "Longest, in bytes"
LONGEST = {
    "id": 64, "type": 64, "string": 64, "tenant": 64, "slice": 64, "principal": 64, "correlation": 64, "scope": 64,
    "cause": 96, "region": 128, "denial": 128, "text": 256, "reason": 256, "details": 512,
}
# "A raise's text has at most 120 code points" (M-104); no other operation has a field of this name
MOST_CODE_POINTS = {"text": 120}
# bytes with few values
VALUES = {
    "severity": range(6), "severity-or-all": [*range(6), 255], "authorised": range(2), "critical-allowed": range(2),
    "option": range(2), "kind": range(1, 9), "scope": range(3),
}
# the bytes of a number
WIDTHS = {"time": 8, "end": 8, "n": 2, "queue": 2}
# the eight kinds as `AffectedObject` lists them
OBJECTS = {
    1: ("string", "string"), 2: ("string", "string"), 3: ("string", "string"), 4: ("string", "string?"),
    5: ("string",), 6: ("string",), 7: ("string",), 8: ("string", "string", "queue"),
}

# ---- UTF-8: the rows of RFC 3629, section 4

TAIL = (0x80, 0xBF)
ROWS = [
    [(0x00, 0x7F)],
    [(0xC2, 0xDF), TAIL],
    [(0xE0, 0xE0), (0xA0, 0xBF), TAIL],
    [(0xE1, 0xEC), TAIL, TAIL],
    [(0xED, 0xED), (0x80, 0x9F), TAIL],
    [(0xEE, 0xEF), TAIL, TAIL],
    [(0xF0, 0xF0), (0x90, 0xBF), TAIL, TAIL],
    [(0xF1, 0xF3), TAIL, TAIL, TAIL],
    [(0xF4, 0xF4), (0x80, 0x8F), TAIL, TAIL],
]


@functools.lru_cache(maxsize=4096)
def characters(s):
    """The characters of s, each as its bytes; None where s is not UTF-8."""
    found, at = [], 0
    while at < len(s):
        for row in ROWS:
            part = s[at:at + len(row)]
            if len(part) == len(row) and all(low <= b <= high for b, (low, high) in zip(part, row)):
                break
        else:
            return None
        found.append(part)
        at += len(row)
    return found


def code_points(s):
    """How many code points s has, which is UTF-8: each row is one."""
    return len(characters(s))


def encoded(c):
    """The bytes of a character by its number, or of any number up to 1FFFFF."""
    if c < 0x80:
        return bytes([c])
    if c < 0x800:
        return bytes([0xC0 | c >> 6, 0x80 | c & 63])
    if c < 0x10000:
        return bytes([0xE0 | c >> 12, 0x80 | c >> 6 & 63, 0x80 | c & 63])
    return bytes([0xF0 | c >> 18, 0x80 | c >> 12 & 63, 0x80 | c >> 6 & 63, 0x80 | c & 63])


# ---- causes

WHITE = [*range(0x09, 0x0E), 0x20, 0x85, 0xA0, 0x1680, *range(0x2000, 0x200B), 0x2028, 0x2029, 0x202F, 0x205F, 0x3000]
SPACES = {encoded(c) for c in WHITE}

# the 21 names of `ProbableCause`
NAMES = b"""config-apply-failed config-drift-detected certificate-expiring certificate-expired identity-unavailable
authorization-policy-invalid session-store-unavailable lease-lost backend-timeout nrf-unreachable sbi-overload
peer-unreachable packet-drop-threshold dataplane-preflight-failed storage-corruption audit-chain-invalid
key-unavailable li-delivery-failed charging-export-failed privacy-policy-violation security-break-glass""".split()


@functools.lru_cache(maxsize=4096)
def stored(s):
    """The stored form of a cause; None where s, which is UTF-8, is no cause."""
    if s in NAMES:
        return s
    if s[:6] != b"other:":
        return None
    name = characters(s[6:])
    while name and name[0] in SPACES:
        name = name[1:]
    while name and name[-1] in SPACES:
        name = name[:-1]
    segments = b"".join(name).split(b".")
    if len(segments) < 2 or b"" in segments or any(c in SPACES for c in name):
        return None
    return b"other:" + b"".join(name)


# ---- one pass, field by field; the first fault wins

class Refused(Exception):
    """The number of a refusal, and the field that it is given at."""


def signed(n):
    """A time, by the unsigned number of its eight bytes."""
    return n - 2 ** 64 if n >= 2 ** 63 else n


def is_later(end, time):
    """Whether an end is later than a time, both as the numbers of their bytes."""
    return signed(end) > signed(time)


class Call:
    """The bytes of a call, the place in them, and the field that is being read."""

    def __init__(self, data):
        self.data, self.at, self.field, self.raised = data, 0, "op", False

    def refuse(self, number):
        raise Refused(number, self.field)

    def take(self, n):
        if self.at + n > len(self.data):
            self.refuse(24)
        self.at += n
        return self.data[self.at - n:self.at]

    def number(self, n):
        return int.from_bytes(self.take(n), "big")

    def choice(self, values):
        b = self.number(1)
        if b not in VALUES[values]:
            self.refuse(25)
        return b

    def string(self, name):
        n = self.number(4)
        if n > LONGEST[name]:
            self.refuse(26)
        s = self.take(n)
        if name != "details" and characters(s) is None:
            self.refuse(27)
        if name in MOST_CODE_POINTS and code_points(s) > MOST_CODE_POINTS[name]:
            self.refuse(33)
        if name == "cause":
            s = stored(s)
            if s is None:
                self.refuse(28)
        return s

    def optional(self, name):
        if self.choice("option") == 0:
            return None
        s = self.string(name)
        if name == "region" and s == b"" and self.raised:
            self.refuse(29)
        return s

    def single(self, part):
        if part in WIDTHS:
            return self.number(WIDTHS[part])
        if part in VALUES:
            return self.choice(part)
        return self.optional(part[:-1]) if part.endswith("?") else self.string(part)

    def value(self, field):
        """A field's value. The parts of an object are fields of their own, named by kind and place."""
        self.field = field
        if field == "object":
            kind, parts = self.choice("kind"), []
            for place, part in enumerate(OBJECTS[kind], 1):
                self.field = f"object {kind}.{place}"
                parts.append(self.single(part))
            return kind, *parts
        if field == "scope":
            scope = self.choice("scope")
            self.field = f"scope {scope}"
            return (scope, self.string("scope")) if scope < 2 else (scope,)
        return self.single(field)

    def read(self):
        """The operation, and its fields' values by name."""
        if not self.data or self.data[0] not in OPERATIONS:
            self.refuse(23)
        op = self.number(1)
        self.raised = op == 1
        values = {field.removesuffix("?"): self.value(field) for field in FIELDS[op]}
        self.field = "left over"
        if self.at < len(self.data):
            self.refuse(24)
        self.field = "end"
        if "end" in values and not is_later(values["end"], values["time"]):
            self.refuse(34)  # "after all field checks" (M-105)
        return op, values


def words(value):
    """A value as words of a line."""
    if isinstance(value, tuple):
        return " ".join(map(words, value))
    if value is None:
        return "-"
    return "x" + value.hex() if isinstance(value, bytes) else str(value)


def line(data):
    try:
        op, values = Call(data).read()
    except Refused as refusal:
        return f"refused {refusal.args[0]}"
    return " ".join([OPERATIONS[op][0], *map(words, values.values())])
