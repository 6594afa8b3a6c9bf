"""The bytes of a call's fields, and calls made of them."""
from reading import FIELDS, OBJECTS


def u32(n):
    return n.to_bytes(4, "big")


def string(s):
    return u32(len(s)) + s


def option(s):
    return b"\0" if s is None else b"\1" + string(s)


def time(t):
    return t.to_bytes(8, "big", signed=True)


def joined(op, changes=()):
    """A call of short fields, of which some are changed: {field: bytes}."""
    return bytes([op]) + b"".join(pieces(op, changes))


def pieces(op, changes=()):
    changes = dict(changes)
    return [changes.get(field, PLAIN[field]) for field in FIELDS[op]]


def thing(kind, first=b"nf", second=b"s1", queue=7):
    """An affected object."""
    parts = {"string?": option(second), "queue": queue.to_bytes(2, "big")}
    strings = [string(first), string(second or b"")]
    return bytes([kind]) + b"".join(parts[part] if part in parts else strings[i] for i, part in enumerate(OBJECTS[kind]))


def scoped(scope, s=b"sc"):
    return bytes([scope]) + (string(s) if scope < 2 else b"")


NOW = 1_700_000_000_000_000_000
PLAIN = {
    "time": time(NOW), "end": time(NOW + 3_600_000_000_000), "id": string(b"a1"), "type": string(b"t"), "severity": b"\3",
    "cause": string(b"lease-lost"), "object": thing(8), "tenant?": option(b"te"), "slice?": option(b"sl"),
    "region?": option(b"re"), "text": string("Tür".encode()), "details?": option(b"{\xff}"), "authorised": b"\1",
    "principal": string(b"op"), "reason": string(b"why"), "scope": scoped(1), "correlation?": option(b"co"),
    "critical-allowed": b"\0", "denial": string(b"no"), "severity-or-all": b"\4", "n": b"\0\2",
}
