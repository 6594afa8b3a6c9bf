"""Calls, good and damaged: `calls()` lists their bytes. What they say is left to reading.py."""
import random

import end_times
import long_texts
from fields import NOW, PLAIN, joined, option, pieces, scoped, string, thing, time, u32
from reading import FIELDS, LONGEST, NAMES, OBJECTS, VALUES, WHITE, encoded

# ---- strings

MIXED = "aé€😀".encode()  # characters of one, two, three and four bytes


def mixed(n):
    """n bytes of characters of every length."""
    whole = MIXED * (n // 10)
    return whole + b"z" * (n - len(whole))


# every string at its limit
LARGEST = {name: string(mixed(n)) for name, n in LONGEST.items()} | {name + "?": option(mixed(n)) for name, n in LONGEST.items()}
LARGEST |= {"cause": string(b"other:" + b"a." * 44 + b"bb"), "object": thing(8, mixed(64), mixed(64)), "scope": scoped(0, mixed(64))}

# not UTF-8; what is wrong is in the comments
NOT_UTF8 = [
    b"\x80", b"\xbf",  # a continuation that stands alone
    b"\xc3", b"\xe2\x82", b"\xe2", b"\xf0\x9f\x98", b"\xf0\x9f", b"\xf0",  # cut
    b"\xc0\x80", b"\xc1\xbf", b"\xe0\x80\x80", b"\xe0\x9f\xbf", b"\xf0\x80\x80\x80", b"\xf0\x8f\xbf\xbf",  # overlong
    b"\xed\xa0\x80", b"\xed\xaf\xbf", b"\xed\xb0\x80", b"\xed\xbf\xbf",  # surrogates
    b"\xf4\x90\x80\x80", b"\xf5\x80\x80\x80", b"\xf7\xbf\xbf\xbf",  # above U+10FFFF
    b"\xf8\x88\x80\x80\x80", b"\xfc\x84\x80\x80\x80\x80", b"\xfe", b"\xff", b"\xff\xfe",  # no row begins so
    b"\xc3a", b"\xe2a\x82", b"\xe2\x82a", b"\xf0a\x98\x80", b"\xf0\x9fa\x80", b"\xf0\x9f\x98a", b"\xc3\xc3\xa9",  # no tail
]
LEADS = [0x00, 0x7F, 0x80, 0xBF, 0xC0, 0xC1, 0xC2, 0xDF, 0xE0, 0xE1, 0xEC, 0xED, 0xEE, 0xEF, 0xF0, 0xF1, 0xF3, 0xF4, 0xF5, 0xFF]
SECONDS = [0x7F, 0x80, 0x8F, 0x90, 0x9F, 0xA0, 0xBF, 0xC0]


def byte_patterns():
    """At the edges of every row: a first byte, a second, and tails: too few, enough, too many."""
    for lead in LEADS:
        yield bytes([lead])
        for second in SECONDS:
            for tails in (b"", b"\x80", b"\xbf\xbf"):
                yield bytes([lead, second]) + tails


def edges():
    """The first and last characters of every length, and beside the surrogates."""
    return [encoded(c) for c in (0, 0x7F, 0x80, 0x7FF, 0x800, 0xD7FF, 0xE000, 0xFFFD, 0xFFFE, 0xFFFF, 0x10000, 0x10FFFF)]


# ---- causes

# beside white space, or taken for it elsewhere
NOT_WHITE = [0x08, 0x0E, 0x1B, 0x1C, 0x1D, 0x1E, 0x1F, 0x21, 0x84, 0x86, 0x9F, 0xA1, 0x180E, 0x1681, 0x1FFF, 0x200B, 0x200D, 0x2027, 0x202A,
             0x202E, 0x2030, 0x205E, 0x2060, 0x2FFF, 0x3001, 0xFEFF]


def causes():
    """Strings that are causes, and strings that are nearly."""
    for name in NAMES:
        yield from (name, name[:-1], name + b"s", b" " + name, name + b"\n", name.upper(), b"other:" + name)
    yield from (b"", b"z", b"other", b"other:", b"Other:a.b", b"other;a.b", b" other:a.b", b"othera.b", b"other.a.b", b"lease_lost")
    good = ["a.b", "a.b.c", "other:a.b", "A.0", "ä.ö", "€.😀", "a-b.c_d", ":.:", "a\x1f.b", "\x1c\x1d.\x1e\x1f", "\x00.\x7f", "a.b:c"]
    bad = ["a", ".", "a.", ".b", "a..b", "..", ".a.b", "a.b.", "ab", "a b", "…", "a。b"]
    for name in good + bad:
        yield b"other:" + name.encode()
        yield b"other:  " + name.encode() + b"\t\r\n"
    for w in map(encoded, WHITE + NOT_WHITE):
        yield from (b"other:" + s for s in (w + b"a.b", b"a.b" + w, w + w + b"a.b" + w))
        yield from (b"other:" + s for s in (b"a" + w + b".b", b"a." + w + b"b", b"a.b" + w + b"c.d"))
    for w in map(encoded, WHITE):
        yield from (w + b"other:a.b", b"other" + w + b":a.b", b"other:" + w, b"other:" + w + b".")
    spaces = b"".join(encoded(c) for c in WHITE)
    yield b"other:" + spaces + b"a.b"
    yield b"other:a.b" + spaces
    yield b"other:" + b"a." * 44 + b"bb"
    yield b"other:" + b"." * 90
    yield b"other:a.b" + b" " * 87
    yield b"other:a.b" + b" " * 88
    yield b"other:" + b" " * 87 + b"a.b"
    yield b"other:" + b"a" * 88 + b".b"


# ---- faults of a field


def faults(field):
    """The bytes of a field with one fault in it."""
    name = field.rstrip("?")
    if name == "object":
        yield from (b"\0" + thing(8)[1:], b"\x09" + thing(8)[1:], b"\xff")
        for kind, parts in OBJECTS.items():
            for bad in list(string_faults("string"))[kind % 2::2]:
                yield bytes([kind]) + bad + string(b"b") + b"\0\0"
                if len(parts) > 1:
                    yield bytes([kind]) + string(b"a") + b"\1" * (kind == 4) + bad + b"\0\0"
        yield from (b"\4" + string(b"a") + bytes([b]) + string(b"b") for b in (2, 3, 255))
    elif name == "scope":
        yield from (bytes([b]) + string(b"s") for b in (3, 4, 128, 255))
        yield from (bytes([b]) + bad for b in (0, 1) for bad in string_faults("scope"))
    elif name == "end":
        yield from map(time, (NOW, NOW - 1, 0, -1, 1 - 2**63, -2**63))  # not later than the call's time
    elif field in VALUES:
        yield from (bytes([b]) for b in (2, 3, 6, 7, 127, 128, 254, 255) if b not in VALUES[field])
    elif field.endswith("?"):
        yield from (bytes([b]) + string(b"o") for b in (2, 3, 128, 255))
        yield from (b"\1" + bad for bad in string_faults(name))
        if name == "region":
            yield b"\1" + string(b"")  # a fault of a raise only
    elif name in LONGEST:
        yield from string_faults(name)


def string_faults(name):
    """A string that is too long, or one whose length is; not UTF-8; too many code points; no cause."""
    limit = LONGEST[name]
    yield string(b"a" * (limit + 1))
    yield from (u32(n) + b"a" for n in (limit + 1, limit + 256, 0x01000001, 2**32 - 4, 2**32 - 1))
    if name != "details":
        yield from (string(bad) for bad in (b"\xff", b"a\xc3", b"\xed\xa0\x80", b"\xf4\x90\x80\x80", b"\xc0\x80z"))
        yield string(b"a" * (limit - 2) + b"\xe2\x82")
    if name == "text":
        yield string(long_texts.TOO_LONG)
    if name == "cause":
        yield from (string(bad) for bad in (b"", b"z", b" lease-lost", b"other:a", b"other:a. b"))


# ---- the lists


def good_values():
    """Fields at their limits, and every value of the small ones, in each operation that has them."""
    for op, fields in FIELDS.items():
        yield joined(op)
        options = [field for field in fields if field.endswith("?")]
        for value in (None, b"", b"o"):
            yield joined(op, {field: option(value) for field in options})
        yield joined(op, LARGEST)
        for field in fields:
            name, made = field.rstrip("?"), option if field.endswith("?") else string
            if field in VALUES and field != "scope":
                yield from (joined(op, {field: bytes([b])}) for b in VALUES[field])
            elif name in LONGEST and name not in ("scope", "cause"):
                n = LONGEST[name]
                yield from (joined(op, {field: made(s)}) for s in (b"", b"q", b"a" * n, mixed(n), mixed(n - 1), encoded(0x10FFFF)))
            elif field in ("time", "end"):
                yield from (joined(op, {field: time(t)}) for t in (0, 1, -1, 2**63 - 1, -2**63, 255, 256, -256))
    yield from (joined(12, {"n": n.to_bytes(2, "big")}) for n in (0, 1, 255, 256, 257, 32768, 65535))
    for first in (None, b"", b"x", mixed(64)):
        yield from (joined(9, {"tenant?": option(first), "slice?": option(second)}) for second in (None, b"", b"y", mixed(64)))
    for places in range(27):
        some = [(None, b"", b"p")[places // k % 3] for k in (9, 3, 1)]
        changes = dict(zip(("tenant?", "slice?", "region?"), map(option, some)))
        yield from (joined(op, changes) for op in (1, 2))


def objects_and_scopes():
    for kind in OBJECTS:
        for first in (b"", b"f", mixed(64)):
            for second in (None, b"", b"s", mixed(64)):
                yield joined(2, {"object": thing(kind, first, second)})
        yield joined(1, {"object": thing(kind, b"a:b", b"c")})
        yield joined(1, {"object": thing(kind, b"a", b"b:c")})
    yield from (joined(1 + q % 2, {"object": thing(8, queue=q)}) for q in (0, 1, 9, 10, 255, 256, 4096, 65534, 65535))
    for op in (5, 6, 13):
        yield joined(op, {"scope": scoped(2)})
        yield from (joined(op, {"scope": scoped(scope, s)}) for scope in (0, 1) for s in (b"", b"s", mixed(64)))
        yield from (joined(op, {"critical-allowed": bytes([c]), "authorised": bytes([a])}) for c in (0, 1) for a in (0, 1))


def texts():
    """Strings of bytes of every kind, UTF-8 or not."""
    for s in NOT_UTF8:
        yield from (s, b"ab" + s, s + b"cd", MIXED + s + MIXED)
    for s in edges():
        yield from (s, s + s, b"a" + s + b"b")
    yield from byte_patterns()


def damaged():
    """Every fault at every field: alone, with nothing after it, and with bytes left over after the call."""
    for op, fields in FIELDS.items():
        for at, field in enumerate(fields):
            for k, bad in enumerate(faults(field)):
                call = pieces(op, {field: bad})
                yield bytes([op]) + b"".join(call)
                if k % 3 == 0:
                    yield bytes([op]) + b"".join(call[:at + 1])
                if k % 6 == 1:
                    yield bytes([op]) + b"".join(call) + b"\0"


def twice_damaged(rng):
    """Two faults in different fields."""
    for op, fields in FIELDS.items():
        for i, first in enumerate(fields):
            for second in fields[i + 1:]:
                one, two = list(faults(first)), list(faults(second))
                if one and two:
                    yield joined(op, {first: rng.choice(one), second: rng.choice(two)})


def cut_or_longer():
    """A call of each operation, kind and scope cut at every byte; and with one byte more and with several."""
    whole = [joined(op) for op in FIELDS] + [joined(1, {"region?": option(None), "object": thing(6, b"a")})]
    whole += [joined(2, {"object": thing(kind)}) for kind in OBJECTS] + [joined(5, {"scope": scoped(scope)}) for scope in VALUES["scope"]]
    whole += [joined(op, {field: option(None) for field in FIELDS[op] if field.endswith("?")}) for op in (1, 2, 5, 9)]
    for call in whole:
        yield from (call[:n] for n in range(1, len(call)))
        yield from (call + more for more in (b"\0", b"\1", b"\xff", b"\0\0\0\0", call))
    for op, field, values in ((1, "object", map(thing, OBJECTS)), *((op, "scope", map(scoped, VALUES["scope"])) for op in (6, 13))):
        before = 1 + sum(map(len, pieces(op)[:FIELDS[op].index(field)]))
        yield from (joined(op, {field: value})[:before + n] for value in values for n in range(len(value)))


def by_chance(rng):
    """Good calls of any values, and the same with some bytes changed, put in or left out."""
    def some(limit):
        return rng.choice((b"", b"k", mixed(rng.randint(2, 16)), mixed(rng.randint(0, limit // 4)), MIXED[-4:]))

    def instead(b):
        return rng.choice((b"", bytes([b ^ 1 << rng.randrange(8)]), bytes([0, b]), rng.randbytes(1)))

    def value(field):
        name = field.rstrip("?")
        if name == "object":
            return thing(rng.randint(1, 8), some(64), rng.choice((None, some(64))), rng.randrange(65536))
        if name == "scope":
            return scoped(rng.randrange(3), some(64))
        if name == "cause":
            return string(rng.choice(NAMES + [b"other: a.b ", b"other:x.y"]))
        if name in LONGEST:
            return option(rng.choice((None, some(LONGEST[name])))) if field.endswith("?") else string(some(LONGEST[name]))
        return bytes([rng.choice(list(VALUES[name]))]) if name in VALUES else rng.randbytes(len(PLAIN[field]))

    for _ in range(300):
        op = rng.choice((1, 1, 1, 2, 2, 3, 4, 5, 5, 6, 6, 7, 9, 12, 13, 13, 14))
        call = joined(op, {field: value(field) for field in FIELDS[op]})
        yield call
        for _ in range(rng.randint(1, 3)):
            at = rng.randrange(len(call))
            call = call[:at] + instead(call[at]) + call[at + 1:]
        yield call


def calls():
    """All of them, each once, in an order that is always the same."""
    rng = random.Random(1)
    found = [b""] + [bytes([op]) for op in range(256)] + [bytes([8, b]) for b in (*range(12), 127, 128, *range(250, 256))]
    found += [bytes([op, 0]) for op in (0, 13, 14, 15, 255)]
    found += [*good_values(), *objects_and_scopes()]
    found += [joined(3 + k % 2, {"id": string(s)}) for k, s in enumerate(texts())]
    found += [joined(1, {"details?": option(s)}) for s in NOT_UTF8[:3] + [bytes(range(256)), bytes(range(255, -1, -1)) * 2]]
    found += [joined(1 + k % 2, {"cause": string(cause)}) for k, cause in enumerate(causes())]
    found += long_texts.calls()
    found += end_times.calls()
    found += [*damaged(), *twice_damaged(rng), *cut_or_longer(), *by_chance(rng)]
    return list(dict.fromkeys(found))
