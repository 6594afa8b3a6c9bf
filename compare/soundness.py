"""Whether bytes are a sound register: document 01, "Sound means", and document 02's M-100, M-104 and M-105, over docs/layout.json.

The check of a record sets aside each byte that has a meaning; all others must be zero.
"""
import functools
import itertools

import imports  # noqa: F401  (finds the reading of calls)
from reading import LONGEST, stored
from records import ALARM_STRINGS, CHAINS, EVENT_STRINGS, LAYOUT, QUEUE_KIND, RAISES_WIDTH, WIDTH, link, number, object_strings


SUPPRESSED = 3  # the state


class Unsound(Exception):
    pass


def need(fact):
    if not fact:
        raise Unsound


class Record:
    """A record's bytes, and those of them that were not read: they have no meaning."""

    def __init__(self, data):
        self.data, self.rest = data, bytearray(data)

    def part(self, at, width):
        self.rest[at:at + width] = bytes(width)
        return self.data[at:at + width]

    def byte(self, at, values):
        value = self.part(at, 1)[0]
        need(value in values)
        return value

    def present(self, field):
        return "present" not in field or self.byte(field["present"], (0, 1)) == 1

    def optional_time(self, field):
        """Whether there is one, which may be any."""
        present = self.present(field)
        if present:
            self.part(field["at"], 8)
        return present

    def string(self, name, field):
        if not self.present(field):
            return
        length = int.from_bytes(self.part(*field["len"]), "big")
        need(length <= LONGEST[name])
        data = self.part(field["at"], length)
        if name == "details":
            return
        try:
            data.decode("utf-8")
        except UnicodeDecodeError:
            raise Unsound from None
        need(name != "cause" or stored(data) == data)
        need(name != "region" or data)

    def rest_is_zero(self):
        need(not self.rest.strip(b"\0"))


def alarm(record, states):
    fields = LAYOUT["alarm"]
    record.part(fields["key"], 16)
    record.byte(fields["severity"], range(6))
    state = record.byte(fields["state"], states)
    record.part(fields["raised_at"], 8)
    record.part(fields["updated_at"], 8)
    record.optional_time(fields["cleared_at"])
    need(not record.optional_time(fields["end"]) or state == SUPPRESSED)  # M-105
    for name in ALARM_STRINGS:
        record.string(name, fields[name])
    kind = record.byte(fields["object"]["kind"], range(1, 9))
    for field in object_strings(kind):
        record.string("string", field)
    if kind == QUEUE_KIND:
        record.part(fields["object"]["queue"], 2)
    record.part(fields["raises"], RAISES_WIDTH)  # any value: records from before raises were counted hold 0 (M-100)


def event(record):
    fields = LAYOUT["event"]
    record.byte(fields["action"], (0, 1))
    record.byte(fields["outcome"], (0, 1))
    record.part(fields["occurred_at"], 8)
    for name in EVENT_STRINGS:
        record.string(name, fields[name])
    if record.byte(fields["scope"]["kind"], (0, 1, 2)) < 2:
        record.string("scope", fields["scope"]["string"])


@functools.lru_cache(maxsize=4096)
def is_of_chain(chain, payload):
    """Whether the bytes behind a record's next index are of a record of the chain."""
    record = Record(bytes(4) + payload)
    try:
        if chain == "audit":
            event(record)
        elif chain != "free":
            alarm(record, range(4 if chain == "active" else 6))
        record.rest_is_zero()
    except Unsound:
        return False
    return True


def walked(data):
    """The indices of each chain."""
    need(len(data) >= WIDTH)
    limits = [number(data, name) for name in "AHE"]
    need(all(1 <= limit <= 65535 for limit in limits))
    count = sum(limits)
    need(len(data) == WIDTH * (1 + count))
    end = max(at + width for at, width in LAYOUT["header"].values())
    need(not data[end:WIDTH].strip(b"\0"))
    met, chains = set(), []
    for chain, limit in itertools.zip_longest(CHAINS, limits, fillvalue=count):
        indices, index = [], number(data, f"{chain}_head")
        while index != 0:
            need(index <= count and index not in met)
            met.add(index)
            indices.append(index)
            index = link(data, index)
        need(len(indices) == number(data, f"{chain}_length") and len(indices) <= limit)
        chains.append(indices)
    need(len(met) == count)
    return chains


def sound_chains(data):
    """The indices of the active, history, audit and free chains; None if the register is not sound."""
    data = bytes(data)
    try:
        chains = walked(data)
        for chain, indices in zip(CHAINS, chains):
            for index in indices:
                need(is_of_chain(chain, data[WIDTH * index + 4:WIDTH * (index + 1)]))
    except Unsound:
        return None
    return chains
