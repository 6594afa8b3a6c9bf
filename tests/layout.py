#!/usr/bin/env python3
"""Holds docs/LAYOUT.md, docs/layout.json and the constants in the code to one another."""
import json
import re
import sys

from checklist import Skip, run

WIDTH = 1536
LINK = 4
HEAD = 16

# Document 01, "Longest, in bytes".
SHORT, CAUSE, REGION, TEXT, DETAILS = 64, 96, 128, 256, 512
ROOM = {
    "id": SHORT, "type": SHORT, "tenant": SHORT, "slice": SHORT, "principal": SHORT, "correlation": SHORT,
    "object string": SHORT, "scope string": SHORT,
    "cause": CAUSE, "region": REGION, "text": TEXT, "reason": TEXT, "details": DETAILS,
}
NUMBER = {
    "key": 16, "severity": 1, "state": 1, "raised_at": 8, "updated_at": 8, "raises": 4,
    "action": 1, "outcome": 1, "occurred_at": 8,
}
LENGTH = 2
TIME = 8

# The fields of each part, in the record's order, and the keys of each field in layout.json.
HEADER = ["A", "H", "E", "active_head", "active_length", "history_head", "history_length",
          "audit_head", "audit_length", "free_head", "free_length", "successes", "failures"]
STRING, OPTION = {"len", "at"}, {"present", "len", "at"}
OBJECT = {"kind", "strings", "shard_present", "queue", "use", "present_kinds"}
ALARM = {"key": None, "severity": None, "state": None, "raised_at": None, "updated_at": None,
         "cleared_at": {"present", "at"}, "id": STRING, "type": STRING, "cause": STRING, "object": OBJECT,
         "tenant": OPTION, "slice": OPTION, "region": OPTION, "text": STRING, "details": OPTION,
         "raises": None, "end": {"present", "at"}}
OPTIONAL_TIMES = ("cleared_at", "end")
EVENT = {"action": None, "outcome": None, "occurred_at": None, "id": STRING, "type": STRING, "cause": STRING,
         "principal": STRING, "tenant": OPTION, "reason": STRING, "scope": {"kind", "string"}, "correlation": OPTION}

# History's sameness test compares these (document 01, "Steps"); masking zeroes those (document 01, "Lists").
SAMENESS = ["id", "type", "severity", "cause", "object", "tenant", "slice", "region", "state"]
TEXTS = ["text", "details"]


def read(root, path):
    return (root / path).read_text(encoding="utf-8")


def layout(root):
    return json.loads(read(root, "docs/layout.json"))


# ---- slots: (name, offset, width), as layout.json has them

def string_slots(name, room, field):
    slots = [(f"{name} present", field["present"], 1)] if "present" in field else []
    offset, width = field["len"]
    return slots + [(f"{name} length", offset, width), (name, field["at"], ROOM[room])]


def object_slots(field):
    slots = [("object kind", field["kind"], 1)]
    for i, string in enumerate(field["strings"]):
        slots += string_slots(f"object string {i}", "object string", string)
    slots += [("object shard present", field["shard_present"], 1), ("object queue", field["queue"], 2)]
    return slots


def field_slots(name, field):
    if name in NUMBER:
        return [(name, field, NUMBER[name])]
    if name in OPTIONAL_TIMES:
        return [(f"{name} present", field["present"], 1), (name, field["at"], TIME)]
    if name == "object":
        return object_slots(field)
    if name == "scope":
        return [("scope kind", field["kind"], 1)] + string_slots("scope string", "scope string", field["string"])
    return string_slots(name, name, field)


def json_slots(root, part):
    fields = layout(root)[part]
    if part == "header":
        slots = [(name, offset, width) for name, (offset, width) in fields.items()]
    else:
        slots = [slot for name, field in fields.items() for slot in field_slots(name, field)]
    return sorted(slots, key=lambda slot: slot[1])


def extent(slots):
    """The first offset of some slots, and the first behind them."""
    return min(s[1] for s in slots), max(s[1] + s[2] for s in slots)


# ---- tables of the page

def table(root, heading, columns):
    """The rows of the table with these columns, under a heading of docs/LAYOUT.md."""
    rows, inside, reading = [], False, False
    for line in read(root, "docs/LAYOUT.md").splitlines():
        if line.startswith("#"):
            inside, reading = line == f"## {heading}", False
        cells = [cell.strip() for cell in line.strip().strip("|").split("|")] if line.startswith("|") else None
        if inside and cells == columns:
            reading = True
        elif not cells:
            reading = False
        elif reading and not set(line) <= set("|-: "):
            rows.append(cells)
    if not rows:
        raise ValueError(f"docs/LAYOUT.md: no table {columns} under '{heading}'")
    return rows


HEADINGS = {"header": "Header", "alarm": "Alarm record", "event": "Event record"}


def page_slots(root, part):
    rows = table(root, HEADINGS[part], ["Field", "Offset", "Width", "Holds"])
    return [(name, int(offset), int(width)) for name, offset, width, _ in rows]


def is_filler(name):
    return name in ("next", "spare") or name.startswith("reserved")


# ---- checks

def form(root):
    """layout.json has exactly the fields that its readers expect."""
    data = layout(root)
    if set(data) != set(HEADINGS):
        yield f"parts are {sorted(data)}"
    if list(data["header"]) != HEADER:
        yield f"header has {list(data['header'])}"
    for part, fields in (("alarm", ALARM), ("event", EVENT)):
        if set(data[part]) != set(fields):
            yield f"{part} has {sorted(data[part])}"
        for name, keys in fields.items():
            field = data[part].get(name)
            if isinstance(field, int) if keys is None else isinstance(field, dict) and set(field) == keys:
                continue
            yield f"{part}.{name} is {field}"
    for part in ("alarm", "event"):
        for name, _, width in json_slots(root, part):
            if name.endswith(" length") and width != LENGTH:
                yield f"{part}: {name} takes {width} bytes, not {LENGTH}"


def agree(root):
    """Every slot of the page's tables is in layout.json with its offset and width, and the other way round."""
    for part in HEADINGS:
        page = {slot for slot in page_slots(root, part) if not is_filler(slot[0])}
        data = set(json_slots(root, part))
        for name, offset, width in sorted(page - data):
            yield f"{part}: {name} at {offset}, {width} bytes, is on the page alone"
        for name, offset, width in sorted(data - page):
            yield f"{part}: {name} at {offset}, {width} bytes, is in layout.json alone"


def filled(root):
    """The page's slots, in order, fill a record with no gap and no overlap; layout.json's do not overlap."""
    for part in HEADINGS:
        end = 0
        for name, offset, width in page_slots(root, part):
            if offset != end:
                yield f"{part}: {name} is at {offset}, and the slot before it ends at {end}"
            end = offset + width
        if end != WIDTH:
            yield f"{part}: the slots end at {end}, not {WIDTH}"
        slots = json_slots(root, part)
        for (name, offset, width), (other, start, _) in zip(slots, slots[1:]):
            if start < offset + width:
                yield f"{part}: {name} and {other} overlap in layout.json"
        if part != "header" and slots[0][1] < LINK:
            yield f"{part}: {slots[0][0]} lies on the next index"


def kinds(root):
    """The table of kinds and layout.json say which strings each kind uses, and which is optional."""
    field = layout(root)["alarm"]["object"]
    use, optional = {}, []
    rows = table(root, HEADINGS["alarm"], ["Kind", "Name", "String 0", "String 1", "Queue"])
    for kind, _, first, second, queue in rows:
        use[kind] = [i for i, string in enumerate((first, second)) if string]
        if "optional" in first + second:
            optional.append(int(kind))
        if bool(queue) != (kind == "8"):
            yield f"kind {kind}: queue is '{queue}' on the page"
    if sorted(use) != [str(k) for k in range(1, 9)]:
        yield f"the page has kinds {sorted(use)}"
    if use != field["use"]:
        yield f"the page uses {use}, layout.json {field['use']}"
    if optional != field["present_kinds"]:
        yield f"optional are {optional} on the page, {field['present_kinds']} in layout.json"


def stretches(root):
    """Each stretch of the page holds its fields and nothing else; sameness and texts are whole."""
    fields = {name: extent(field_slots(name, field)) for name, field in layout(root)["alarm"].items()}
    named = {"sameness": [], "texts": []}
    for name, start, end, listed in table(root, "Why this order", ["Stretch", "From", "To", "Fields"]):
        start, end, listed = int(start), int(end), listed.split(", ")
        named[name.split(",")[0]] += listed
        held = sorted(f for f, (a, e) in fields.items() if start <= a and e <= end)
        if held != sorted(listed):
            yield f"{name}: bytes {start} to {end} hold {held}, the page says {listed}"
        elif sum(fields[f][1] - fields[f][0] for f in listed) != end - start:
            yield f"{name}: bytes {start} to {end} hold more than {listed}"
    for name, wanted in (("sameness", SAMENESS), ("texts", TEXTS)):
        if sorted(named[name]) != sorted(wanted):
            yield f"{name}: the stretches have {sorted(named[name])}, document 01 {sorted(wanted)}"


def held_to(path, found, wanted):
    for name, value in wanted.items():
        if name not in found:
            yield f"{path}: {name} is missing"
        elif found[name] != value:
            yield f"{path}: {name} is {found[name]}, not {value}"


# ---- constants of the code

MODEL, PLACES = "crates/model/src/lib.rt", "crates/record/src/places.rt"


def constants(root):
    """The associated constants of the model's types and of the table of places, computed: {'Record': {'WIDTH': 1536, ..}, ..}."""
    terms = {}
    for path in (MODEL, PLACES):
        for owner, body in re.findall(r"^impl (\w+) \{\n(.*?)^\}", read(root, path), re.M | re.S):
            for name, term in re.findall(r"pub const (\w+): usize = ([^;]+);", body):
                terms[f"{owner}::{name}"] = term.replace("Self::", f"{owner}::")

    def value(term):
        digits = re.sub(r"\w+::\w+", lambda found: str(value(terms.get(found.group(), "?"))), term)
        if not re.fullmatch(r"[\d+* -]+", digits):
            raise ValueError(f"a constant is no sum of numbers: {term}")
        return eval(digits)

    found = {}
    for name, term in terms.items():
        owner, name = name.split("::")
        found.setdefault(owner, {})[name] = value(term)
    return found


def model(root):
    """The constants of the record type are document 01's limits and the record's widths; an answer's head is its 16 bytes."""
    found = constants(root)
    yield from held_to(f"{MODEL}: Record", found["Record"], {
        "WIDTH": WIDTH, "LINK": LINK, "PAYLOAD": WIDTH - LINK, "KEY": NUMBER["key"],
        "SHORT": SHORT, "CAUSE": CAUSE, "REGION": REGION, "TEXT": TEXT, "DETAILS": DETAILS})
    yield from held_to(f"{MODEL}: Answer", found["Answer"], {"HEAD": HEAD})


def places(root):
    """The places of the header's numbers, of a payload's slots and of an object's parts are the layout's."""
    found, data = constants(root), layout(root)
    at = {name: offset for name, (offset, _) in data["header"].items()}
    yield from held_to(f"{MODEL}: HeaderAt", found["HeaderAt"], {
        "ACTIVE_LIMIT": at["A"], "HISTORY_LIMIT": at["H"], "AUDIT_LIMIT": at["E"],
        "FIRST": at["active_head"], "HELD": at["active_length"], "CHAIN": at["history_head"] - at["active_head"],
        "FREE_FIRST": at["free_head"], "FREE_HELD": at["free_length"],
        "SUCCESSES": at["successes"], "FAILURES": at["failures"], "SPARE": extent(json_slots(root, "header"))[1]})
    for owner, part in (("AlarmAt", "alarm"), ("EventAt", "event")):
        wanted = {name.upper(): extent(field_slots(name, field))[0] - LINK for name, field in data[part].items()}
        wanted["SPARE"] = extent(json_slots(root, part))[1] - LINK
        yield from held_to(f"{PLACES}: {owner}", found[owner], wanted)
    parts = data["alarm"]["object"]
    first, second = (string["len"][0] for string in parts["strings"])
    wanted = {"FIRST": first, "MARK": parts["shard_present"], "SECOND": second, "QUEUE": parts["queue"]}
    yield from held_to(f"{PLACES}: ObjectAt", found["ObjectAt"], {name: at - parts["kind"] for name, at in wanted.items()})


def limits(root):
    """The definition's limits are document 01's."""
    yield from held_to("crates/definition/specs/Limits.antt", limits_of(root), {
        "record_width": WIDTH, "short_limit": SHORT, "cause_limit": CAUSE, "region_limit": REGION,
        "text_limit": TEXT, "details_limit": DETAILS})


def later(root, path):
    if not (root / path).exists():
        raise Skip(f"{path} is not there yet")
    return read(root, path)


def limits_of(root):
    rows = re.findall(r"^(\w+) = (\d+)$", read(root, "crates/definition/specs/Limits.antt"), re.M)
    return {name: int(value) for name, value in rows}


def slot_width(expression, text, limit):
    """How many bytes a slot of the definition takes, as `option (string short_limit utf8)`; text holds the named ones."""
    expression = expression.strip()
    if expression.startswith("(") and expression.endswith(")"):
        return slot_width(expression[1:-1], text, limit)
    head, _, rest = expression.partition(" ")
    if head in ("raw", "number", "spare"):
        return int(rest)
    if head == "up_to":
        return 1
    if head == "string":
        return LENGTH + limit[rest.split()[0]]
    if head == "option":
        return 1 + slot_width(rest, text, limit)
    found = re.search(rf"^{re.escape(expression)} =\s+record \{{\s*width = (\d+);", text, re.M)
    if found:
        return int(found.group(1))
    found = re.search(rf"^{re.escape(expression)} = (.+)$", text, re.M)
    if not found:
        raise ValueError(f"no slot {expression}")
    return slot_width(found.group(1), text, limit)


def definition_slots(root, part, text):
    """(field, offset, width) of the definition's list of slots, field names as in layout.json."""
    block = re.search(rf"^{part}_fields\b[^=\n]*=\n(.*?)∷ \[\]", text, re.M | re.S)
    if not block:
        raise ValueError(f"no list {part}_fields")
    slots, at, limit = [], LINK, limits_of(root)
    for expression, field in re.findall(r"^\s*(?:∷ )?(.+?) holds \(λ \w+\. (.+)\)$", block.group(1), re.M):
        name = field.split(".")[-1].strip()
        width = slot_width(expression, text, limit)
        slots.append(("spare" if name == "tt" else name, at, width))
        at += width
    return slots


def slots(root):
    """The definition's payloads are the layout's fields, in its order and widths."""
    path = "crates/definition/specs/Record.antt"
    text = later(root, path)
    for part in ("alarm", "event"):
        fields = {name: extent(field_slots(name, field)) for name, field in layout(root)[part].items()}
        wanted = sorted(((name, start, end - start) for name, (start, end) in fields.items()), key=lambda slot: slot[1])
        last = max(end for _, end in fields.values())
        wanted.append(("spare", last, WIDTH - last))
        found = definition_slots(root, part, text)
        for slot in sorted(set(found) ^ set(wanted), key=lambda slot: slot[1]):
            yield f"{path}: {part}: {slot} is {'in the definition' if slot in found else 'in the layout'} alone"


def field_of(name):
    """The layout's name of a number that the definition's header has: a limit is named by its letter there."""
    return re.sub(r"^limit_([ahe])$", lambda found: found.group(1).upper(), name)


def header(root):
    """The definition writes and reads the header's numbers at the layout's offsets; its rest is zeros."""
    path = "crates/definition/specs/Book.antt"
    text = later(root, path)
    fields = layout(root)["header"]
    found = {}
    for name, width, at in re.findall(r"^\s*(\w+) = (?:at32|number_at (\d)) \w+ (\d+);$", text, re.M):
        found[field_of(name)] = [int(at), int(width or 4)]
    for name, length, head in re.findall(r"^\s*(\w+) = walk \w+ \(at32 \w+ (\d+)\) \(at32 \w+ (\d+)\);$", text, re.M):
        found[f"{name}_length"], found[f"{name}_head"] = [int(length), 4], [int(head), 4]
    yield from held_to(path, found, fields)
    words = re.search(r"^words b =\n(.*?)∷ \[\]", text, re.M | re.S)
    names = [field_of(item.strip().removeprefix("b.")) for item in words.group(1).split("∷")] if words else []
    names = [re.sub(r"^(first_of|length) b\.(\w+)$", lambda m: f"{m.group(2)}_{'head' if m.group(1) == 'first_of' else 'length'}", name) for name in names]
    wanted = [name for name, (at, width) in sorted(fields.items(), key=lambda field: field[1]) if width == 4]
    if names != wanted:
        yield f"{path}: words are {names}, the layout has {wanted}"
    rest = WIDTH - extent(json_slots(root, "header"))[1]
    if not re.search(rf"^header b = .*\bzeros {rest}\)*$", text, re.M):
        yield f"{path}: no `zeros {rest}` behind the header's numbers"
    yield from held_to(path, dict(re.findall(r"^(payload_width) = (\d+)$", text, re.M)), {"payload_width": str(WIDTH - LINK)})


CHECKS = {
    "layout.json has its form": form,
    "LAYOUT.md and layout.json agree": agree,
    "slots fill 1,536 bytes": filled,
    "strings of each kind": kinds,
    "stretches of sameness and texts": stretches,
    "constants of the record type": model,
    "places in the code": places,
    "limits of the definition": limits,
    "slots of the definition's records": slots,
    "header of the definition": header,
}

if __name__ == "__main__":
    sys.exit(run("layout", CHECKS))
