#!/usr/bin/env python3
"""Writes crates/calls_replay/stdin, a list of calls, and stdout, what each of them says.

In stdin each call is a u32 length, big-endian, and its bytes. In stdout each has one line, as reading.py gives it. Both
are the same on every run. First the reading is tried against Python's own UTF-8, white space and string functions,
against calls whose lines are known, and the list against the refusals that each field can have.
"""
import sys
from pathlib import Path

import long_texts
from cases import calls, causes, texts
from fields import joined, option, string
from reading import FIELDS, OBJECTS, VALUES, WHITE, WIDTHS, Call, Refused, characters, code_points, encoded, line, stored

CRATE = Path(__file__).resolve().parents[2] / "crates/calls_replay"

PLAIN_RAISE = "01 0000000000000000 00000001 61 00000001 74 03 {cause} 06 00000001 61 00 00 {region} {text} 00"


def raised(cause=b"lease-lost", region=None, text=b""):
    return PLAIN_RAISE.format(cause=string(cause).hex(), region=option(region).hex(), text=string(text).hex())


def saying(text):
    """The line of a raise with this text."""
    return f"raise 0 x61 x74 3 x6c656173652d6c6f7374 6 x61 - - - x{text.hex()} -"


# texts of at most 120 code points and 256 bytes, and longer ones of at most 256 bytes
FITTING = [b"x" * 120, "é".encode() * 120, "\U0001F6A1".encode() * 64, "e\u0301".encode() * 60, "€".encode() * 85, b"\0" * 120,
           "é".encode() * 60 + "€".encode() * 38 + b"x" * 22]
TOO_MANY = [b"x" * 121, b"x" * 256, "é".encode() * 121, "e\u0301".encode() * 61, b"\0" + b"x" * 120, b"x" * 60 + b"\0" + b"x" * 60,
            "é".encode() * 61 + "€".encode() * 37 + b"x" * 23]

# operation 13: between time and end, and behind them
UNTIL = "0d {time} {end} 00000001 61 00000001 70 00 00000000 02 00 00 01 00000002 6e6f"


def until(time, end):
    return UNTIL.format(time=time, end=end)


ZERO, ONE, LESS, LEAST, MOST = "0000000000000000", "0000000000000001", "ffffffffffffffff", "8000000000000000", "7fffffffffffffff"

# calls whose lines follow from single sentences of document 01, or of document 02's M-104 and M-105
KNOWN = [
    (raised(), "raise 0 x61 x74 3 x6c656173652d6c6f7374 6 x61 - - - x -"),
    (raised(b"other: a.b "), "raise 0 x61 x74 3 x6f746865723a612e62 6 x61 - - - x -"),
    (raised(b"other:\xc2\xa0a.b"), "raise 0 x61 x74 3 x6f746865723a612e62 6 x61 - - - x -"),
    (raised(b"other:a.\x1fb"), "raise 0 x61 x74 3 x6f746865723a612e1f62 6 x61 - - - x -"),
    (raised(b"other:a"), "refused 28"),
    (raised(b" lease-lost"), "refused 28"),
    (raised(b"other:a.b" + b" " * 88), "refused 26"),
    (raised(b"z") + "00", "refused 28"),
    (raised(b"z")[:-2], "refused 28"),
    (raised(region=b"", text=b"\xff"), "refused 29"),
    (raised() + "00", "refused 24"),
    *((raised(text=text), saying(text)) for text in FITTING),
    *((raised(text=text), "refused 33") for text in TOO_MANY),
    (raised(text=b"x" * 257), "refused 26"),
    (raised(text="€".encode() * 120), "refused 26"),
    (raised(text=b"x" * 121 + b"\xff"), "refused 27"),
    (raised(text=b"x" * 121)[:-2] + "02", "refused 33"),
    (raised(text=b"x" * 121)[:-2], "refused 33"),
    (raised(text=b"x" * 121) + "00", "refused 33"),
    (raised(region=b"", text=b"x" * 121), "refused 29"),
    (raised(region=b"x" * 121), f"raise 0 x61 x74 3 x6c656173652d6c6f7374 6 x61 - - x{'78' * 121} x -"),
    (f"05 0000000000000000 00000001 61 00000000 00 00000100 {'78' * 256} 02 00 00 01 00000000",
     f"acknowledge-policy 0 x61 x - x{'78' * 256} 2 - 0 1 x"),
    ("02 0000000000000000 00000001 74 0000000a 6c656173652d6c6f7374 04 00000000 01 00000000 00 00 01 00000000",
     "clear 0 x74 x6c656173652d6c6f7374 4 x x - - x"),
    ("03 ffffffffffffffff 00000000 01", "acknowledge 18446744073709551615 x 1"),
    ("03 0000000000000000 00000001 ff 01 00", "refused 27"),
    ("03 0000000000000000 00000041", "refused 26"),
    ("03 0000000000000000 000000", "refused 24"),
    ("04 0000000000000000 00000000 02", "refused 25"),
    ("08 ff", "active 255"),
    ("08 06", "refused 25"),
    ("09 02 00000000 00", "refused 25"),
    ("0a", "counts"),
    ("0a 00", "refused 24"),
    ("0c ffff", "take-audit 65535"),
    (until(ZERO, ONE), "suppress-until 0 1 x61 x70 - x 2 - 0 1 x6e6f"),
    (until(LESS, ZERO), "suppress-until 18446744073709551615 0 x61 x70 - x 2 - 0 1 x6e6f"),
    (until(LEAST, MOST), "suppress-until 9223372036854775808 9223372036854775807 x61 x70 - x 2 - 0 1 x6e6f"),
    *((until(time, end), "refused 34") for time, end in
      [(ZERO, ZERO), (ONE, ZERO), (ZERO, LESS), (MOST, MOST), (MOST, LEAST), (ZERO, LEAST), (LEAST, LEAST)]),
    (until(ZERO, ZERO) + "00", "refused 24"),
    (until(ZERO, ZERO)[:-2], "refused 24"),
    (until(ZERO, ZERO)[:-4] + "ffff", "refused 27"),
    (f"0d {ZERO} {ZERO}", "refused 24"),
    (f"0d {ZERO} 00000000000000", "refused 24"),
    ("0d", "refused 24"),
    ("0d 00", "refused 24"),
    (f"0e {ZERO}", "lift 0"),
    (f"0e {LESS}", "lift 18446744073709551615"),
    (f"0e {ZERO} 00", "refused 24"),
    ("0e 00000000000000", "refused 24"),
    ("0e", "refused 24"),
    ("0f", "refused 23"),
    ("0f 00", "refused 23"),
    ("01", "refused 24"),
    ("", "refused 23"),
]


def in_python(s):
    """How many code points s has, by Python; None where it is not UTF-8."""
    try:
        return len(s.decode("utf-8"))
    except UnicodeDecodeError:
        return None


def stored_in_python(s):
    """The stored form of an `other:` cause, by Python's strings; s is UTF-8."""
    head, _, rest = s.decode().partition("other:")
    name = rest.strip("".join(map(chr, WHITE)))
    good = head == "" and "." in name and all(part and not any(ord(c) in WHITE for c in part) for part in name.split("."))
    return ("other:" + name).encode() if good else None


def possible():
    """Operation, field and number of each refusal that documents 01 and 02 allow."""
    def strings(name):
        found = {24, 26} | ({25} if name.endswith("?") else set()) | ({27} if name != "details?" else set())
        return found | ({28} if name == "cause" else set())

    for op, fields in FIELDS.items():
        yield from ((op, "left over", 24), (None, "op", 23))
        for field in fields:
            numbers = {24} if field in WIDTHS else {24, 25} if field in VALUES or field == "object" else strings(field)
            yield from ((op, field, number) for number in numbers)
            if field == "object":
                parts = [(f"object {kind}.{k}", part) for kind, found in OBJECTS.items() for k, part in enumerate(found, 1)]
                yield from ((op, place, number) for place, part in parts for number in ({24} if part in WIDTHS else strings(part)))
            if field == "scope":
                yield from ((op, f"scope {scope}", number) for scope in (0, 1) for number in strings("scope"))
    yield 1, "region?", 29
    yield 1, "text", 33
    yield 13, "end", 34


def refusals(data):
    """The same three of a call's refusal."""
    try:
        Call(data).read()
    except Refused as refusal:
        number, field = refusal.args
        yield (None if field == "op" else data[0]), field, number


def tried(listed):
    """The faults that the trials find."""
    short = [bytes([a]) for a in range(256)] + [bytes([a, b]) for a in range(256) for b in range(256)]
    for s in [*short, *texts(), *long_texts.texts()]:
        if (None if characters(s) is None else code_points(s)) != in_python(s):
            yield f"UTF-8: {s.hex()}"
    for c in range(0, 0x110000, 61):
        if not 0xD800 <= c < 0xE000 and encoded(c) != chr(c).encode():
            yield f"the character {c:x}"
    if set(WHITE) != {c for c in range(0x110000) if chr(c).isspace()} - {0x1C, 0x1D, 0x1E, 0x1F}:
        yield "white space"
    for s in causes():
        if stored(s) != stored_in_python(s) and stored(s) != s:
            yield f"the cause {s!r}"
    for data, said in KNOWN:
        if line(bytes.fromhex(data)) != said:
            yield f"{data} says {line(bytes.fromhex(data))} and not {said}"
    met = {refusal for data in listed for refusal in refusals(data)}
    for missing in set(possible()) ^ met:
        yield f"the refusal {missing} is {'not met' if missing not in met else 'met, and not allowed'}"
    for op in FIELDS:
        if line(joined(op)).startswith("refused"):
            yield f"operation {op} has no good call"


def main():
    listed = calls()
    faults = list(tried(listed))
    for fault in faults:
        print(f"tests/calls/make.py: {fault}", file=sys.stderr)
    (CRATE / "stdin").write_bytes(b"".join(len(data).to_bytes(4, "big") + data for data in listed))
    (CRATE / "stdout").write_text("".join(line(data) + "\n" for data in listed))
    return 1 if faults else 0


if __name__ == "__main__":
    sys.exit(main())
