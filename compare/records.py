"""The fields of header, alarm and event records as values, by docs/layout.json.

An alarm and an event are dictionaries of their fields: strings are bytes, an absent one is None, times are signed
numbers, an object is its kind and its parts, a scope its number and its string. Raises are a number (M-100); the end is that of a suppression
until a time, None where there is none (M-105).
"""
import functools
import json
import pathlib

ROOT = pathlib.Path(__file__).resolve().parent.parent
LAYOUT = json.loads((ROOT / "docs/layout.json").read_text(encoding="utf-8"))
WIDTH = 1536
CHAINS = ["active", "history", "audit", "free"]
ALARM_STRINGS = ["id", "type", "cause", "tenant", "slice", "region", "text", "details"]
EVENT_STRINGS = ["id", "type", "cause", "principal", "tenant", "reason", "correlation"]
SHARD_KIND, QUEUE_KIND = 4, 8
RAISES_WIDTH = 4
MOST_RAISES = 4294967295


def number(data, name):
    """A number of the header."""
    at, width = LAYOUT["header"][name]
    return int.from_bytes(data[at:at + width], "big")


def put_number(data, name, value):
    at, width = LAYOUT["header"][name]
    data[at:at + width] = value.to_bytes(width, "big")


def link(data, index):
    """The index that follows a record's on its chain, 0 for none."""
    return int.from_bytes(data[WIDTH * index:WIDTH * index + 4], "big")


def put_link(data, index, value):
    data[WIDTH * index:WIDTH * index + 4] = value.to_bytes(4, "big")


def unlinked(data, index):
    """A record with its next index zero, as answers hold it."""
    return bytes(4) + data[WIDTH * index + 4:WIDTH * (index + 1)]


# ---- slots

def put(data, at, value):
    data[at:at + len(value)] = value


def time_at(data, at):
    return int.from_bytes(data[at:at + 8], "big", signed=True)


def put_time(data, at, value):
    put(data, at, value.to_bytes(8, "big", signed=True))


def time_or_none(data, field):
    return time_at(data, field["at"]) if data[field["present"]] else None


def put_time_or_none(data, field, value):
    if value is not None:
        data[field["present"]] = 1
        put_time(data, field["at"], value)


def string_at(data, field):
    if "present" in field and data[field["present"]] == 0:
        return None
    at, width = field["len"]
    return bytes(data[field["at"]:field["at"] + int.from_bytes(data[at:at + width], "big")])


def put_string(data, field, value):
    if value is None:
        return
    if "present" in field:
        data[field["present"]] = 1
    put(data, field["len"][0], len(value).to_bytes(field["len"][1], "big"))
    put(data, field["at"], value)


def object_strings(kind):
    """The slots of the strings that a kind has."""
    fields = LAYOUT["alarm"]["object"]
    for place in fields["use"][str(kind)]:
        optional = place == 1 and kind in fields["present_kinds"]
        yield fields["strings"][place] | ({"present": fields["shard_present"]} if optional else {})


def object_at(data):
    fields = LAYOUT["alarm"]["object"]
    kind = data[fields["kind"]]
    parts = [string_at(data, field) for field in object_strings(kind)]
    if kind == QUEUE_KIND:
        parts.append(int.from_bytes(data[fields["queue"]:fields["queue"] + 2], "big"))
    return kind, *parts


def put_object(data, kind, parts):
    fields = LAYOUT["alarm"]["object"]
    data[fields["kind"]] = kind
    for field, value in zip(object_strings(kind), parts):
        put_string(data, field, value)
    if kind == QUEUE_KIND:
        put(data, fields["queue"], parts[2].to_bytes(2, "big"))


def raises_at(data):
    at = LAYOUT["alarm"]["raises"]
    return int.from_bytes(data[at:at + RAISES_WIDTH], "big")


def put_raises(data, value, index=0):
    """The raises of a record, or of the record of this index in a register."""
    put(data, WIDTH * index + LAYOUT["alarm"]["raises"], value.to_bytes(RAISES_WIDTH, "big"))


# ---- records

@functools.lru_cache(maxsize=4096)
def alarm_of(record):
    fields = LAYOUT["alarm"]
    alarm = {name: string_at(record, fields[name]) for name in ALARM_STRINGS}
    return alarm | {
        "key": record[fields["key"]:fields["key"] + 16],
        "severity": record[fields["severity"]],
        "state": record[fields["state"]],
        "raised_at": time_at(record, fields["raised_at"]),
        "updated_at": time_at(record, fields["updated_at"]),
        "cleared_at": time_or_none(record, fields["cleared_at"]),
        "object": object_at(record),
        "raises": raises_at(record),
        "end": time_or_none(record, fields["end"]),
    }


def alarm_record(alarm):
    data, fields = bytearray(WIDTH), LAYOUT["alarm"]
    put(data, fields["key"], alarm["key"])
    data[fields["severity"]], data[fields["state"]] = alarm["severity"], alarm["state"]
    put_time(data, fields["raised_at"], alarm["raised_at"])
    put_time(data, fields["updated_at"], alarm["updated_at"])
    put_time_or_none(data, fields["cleared_at"], alarm["cleared_at"])
    put_time_or_none(data, fields["end"], alarm["end"])
    for name in ALARM_STRINGS:
        put_string(data, fields[name], alarm[name])
    put_object(data, alarm["object"][0], alarm["object"][1:])
    put_raises(data, alarm["raises"])
    return bytes(data)


@functools.lru_cache(maxsize=4096)
def event_of(record):
    fields = LAYOUT["event"]
    event = {name: string_at(record, fields[name]) for name in EVENT_STRINGS}
    kind = record[fields["scope"]["kind"]]
    return event | {
        "action": record[fields["action"]],
        "outcome": record[fields["outcome"]],
        "occurred_at": time_at(record, fields["occurred_at"]),
        "scope": (kind, string_at(record, fields["scope"]["string"])) if kind < 2 else (kind,),
    }


def event_record(event):
    data, fields = bytearray(WIDTH), LAYOUT["event"]
    data[fields["action"]], data[fields["outcome"]] = event["action"], event["outcome"]
    put_time(data, fields["occurred_at"], event["occurred_at"])
    for name in EVENT_STRINGS:
        put_string(data, fields[name], event[name])
    kind, *string = event["scope"]
    data[fields["scope"]["kind"]] = kind
    put_string(data, fields["scope"]["string"], string[0] if string else None)
    return bytes(data)
