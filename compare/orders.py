"""Lists of calls: orders as the driver and the oracle read them (compare/lists/src/lib.rs), and what the driver writes."""
import struct
from typing import NamedTuple, Optional

import imports  # noqa: F401  (finds the reading of calls)
from reading import line
from records import LAYOUT


class Open(NamedTuple):
    limits: tuple
    size: int
    former: int = 0

    def written(self):
        return struct.pack(">cIIIIB", b"o", *self.limits, self.size, self.former)


class Step(NamedTuple):
    call: bytes
    room: int
    former: int = 0

    def written(self):
        return struct.pack(">cIBI", b"s", self.room, self.former, len(self.call)) + self.call


class Given(NamedTuple):
    """The register becomes these bytes."""
    register: bytes

    def written(self):
        return struct.pack(">cI", b"r", len(self.register)) + self.register


class Counters(NamedTuple):
    successes: int
    failures: int

    def written(self):
        return struct.pack(">cIQQ", b"c", LAYOUT["header"]["successes"][0], self.successes, self.failures)


class Panel(NamedTuple):
    """A look at the panel block, or a write of a byte to a place of it (M-102); the block before it, None where it is as the panel call before
    left it. The first of these meets an empty one."""
    block: Optional[bytes] = None
    at: Optional[int] = None
    value: int = 0

    def written(self):
        block = self.block or b""
        return struct.pack(">cBIBBI", b"p", self.at is not None, self.at or 0, self.value, self.block is None, len(block)) + block


class Mark(NamedTuple):
    """The steps that follow are measured under this name."""
    name: str

    def written(self):
        return struct.pack(">cI", b"m", len(self.name)) + self.name.encode()


def written(orders):
    return b"".join(order.written() for order in orders)


def shown(order):
    """An order as text, for a reader."""
    if isinstance(order, Step):
        return f"step {order.call.hex()} with room for {order.room}, filled with {order.former}  ({line(order.call)})"
    if isinstance(order, Given):
        return f"register {order.register.hex()}"
    if isinstance(order, Panel):
        call = "look" if order.at is None else f"write of {order.value} to byte {order.at}"
        return f"panel {call}, on the block {'that the call before left' if order.block is None else order.block.hex()}"
    return str(order)


def results(output):
    """Number, length, answer up to its last byte that is not the former one, or the whole panel block, and the register's changes, for each
    order."""
    at = 0
    while at < len(output):
        number, length, room = struct.unpack_from(">IQI", output, at)
        at += 16
        answer = output[at:at + room]
        at += room
        (runs,), changes = struct.unpack_from(">I", output, at), []
        at += 4
        for _ in range(runs):
            place, size = struct.unpack_from(">II", output, at)
            changes.append((place, output[at + 8:at + 8 + size]))
            at += 8 + size
        yield number, length, answer, changes
