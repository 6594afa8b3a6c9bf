"""A call's bytes from the values of its fields: the way back from tests/calls/reading.py."""
import imports  # noqa: F401  (finds the reading of calls)
from reading import FIELDS, OBJECTS, VALUES, WIDTHS

# document 01's worked call: type `t`, lease-lost, tenant object `a`, no options
PLAIN = {
    "time": 0, "id": b"a", "type": b"t", "severity": 3, "cause": b"lease-lost", "object": (6, b"a"), "tenant": None,
    "slice": None, "region": None, "text": b"", "details": None, "authorised": 1, "principal": b"", "reason": b"",
    "scope": (2,), "correlation": None, "critical_allowed": 0, "denial": b"no", "severity_or_all": 255, "n": 0,
    "end": 1,
}


def string(s):
    return len(s).to_bytes(4, "big") + s


def single(part, value):
    if part in WIDTHS:
        return (value % 256 ** WIDTHS[part]).to_bytes(WIDTHS[part], "big")
    if part in VALUES:
        return bytes([value])
    if part.endswith("?"):
        return b"\0" if value is None else b"\1" + string(value)
    return string(value)


def field_bytes(field, value):
    if field == "object":
        kind, *parts = value
        return bytes([kind]) + b"".join(map(single, OBJECTS[kind], parts))
    if field == "scope":
        return bytes([value[0]]) + b"".join(map(string, value[1:]))
    return single(field, value)


def pieces(op, **values):
    """The bytes of each field, in order; fields that are not given are those of the worked call."""
    values = PLAIN | values
    return [field_bytes(field, values[field.removesuffix("?").replace("-", "_")]) for field in FIELDS[op]]


def call(op, **values):
    return bytes([op]) + b"".join(pieces(op, **values))
