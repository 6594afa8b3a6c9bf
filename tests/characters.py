"""Texts measured in characters: what is written, read, shown, recounted and checked of them. Checks for desk.py."""
import csv
import io
import json

from program import PAGE_WIDTH, WORK, ends, saved, too_wide, works

WIDTH, TEXT, LONGEST = 1536, 678, 256
# Where the header has the first record of the active and of the history chain.
ACTIVE, HISTORY = 12, 20
HEAD = "limits active=9 history=9 audit=1\n"
# As many characters of one width as a text may have; 120 in 256 bytes; letters with a mark of their own.
FULL = ["x" * 120, "é" * 120, "→" * 85, "停" * 85, "🚡" * 64, "é" * 112 + "🚡" * 8, "e\u0301" * 60]
# A character too many, in at most 256 bytes.
LONG = ["x" * 121, "é" * 121, "x" + "é" * 108 + "→" * 9 + "🚡" * 3, "e\u0301" * 61, "x" * 256]
BARS = "│┬┼┴"


def line(text, name="a"):
    """A raise's line; a text in quotes begins in column 91."""
    return f'2026-03-14 09:00 raise id={name} type=t severity=minor cause=lease-lost object=tenant({name}) text="{text}"\n'


def listed(*lines):
    """A list of these lines, as a file."""
    return saved("characters.calls", works("write", "-", given=HEAD + "".join(lines)))


def string(data):
    return len(data).to_bytes(4, "big") + data


def raw(text):
    """The line of a raise as bytes, which may be any."""
    fields = b"\1" + bytes(8) + string(b"a") + string(b"t") + b"\3" + string(b"lease-lost") + b"\6" + string(b"a") + bytes(3)
    return f"raw {(fields + string(text.encode()) + bytes(1)).hex()}\n"


def rows(*words):
    return list(csv.DictReader(io.StringIO(works(*words, "--csv").decode(), newline="")))


def named(_root):
    """A text with a character too many is told where that character is written, by its name; one with too many bytes as before."""
    said = "line 3, column {}: text has {} characters; at most 120 are allowed, and the first too many is {}\n".format
    for text, fault in [
        ("x" * 121, said(211, 121, "`x`, U+0078")),
        ("é" * 120 + "ů!", said(211, 122, "`ů`, U+016F")),
        ("→" * 120 + "🚡", said(211, 121, "`🚡`, U+1F6A1")),
        (r"\u{e9}" * 120 + r"\n", said(91 + 6 * 120, 121, r"`\n`, U+000A")),
        ("🚡" * 65, "line 3, column 90: text is 260 bytes long; at most 256 are allowed\n"),
    ]:
        yield from ends(3, f"long.txt: {fault}", "write", saved("long.txt", HEAD + "\n" + line(text)))


def taken(_root):
    """Texts at either limit are written, raised, and shown to scripts as they were."""
    names = "abcdefg"
    calls = listed(*(line(text, name) for text, name in zip(FULL, names, strict=True)))
    if [row["text"] for row in rows("replay", calls, "--only", "active")] != FULL:
        yield "texts are not as they were written"


def refused(_root):
    """A raise with a character too many is kept as its bytes, refused with 33, counted so, and of no twin."""
    for text in LONG:
        calls = listed(line("short"), raw(text))
        shown = works("read", calls).decode()
        if not shown.endswith(raw(text)[:-1] + " # refused: 33: the raise's text has more than 120 code points\n"):
            yield f"{text} is read as {shown}"
        if works("write", "-", given=shown) != calls.read_bytes():
            yield f"{text} is another call after read and write"
        answers = [(row["number"], row["answer"], row["first_call"]) for row in rows("replay", calls, "--only", "answers")]
        if answers != [("1", "raised", "1"), ("33", "refused: the raise's text has more than 120 code points", "2")]:
            yield f"{text}: the answers are {answers}"
        if {"figure": "refused 33", "value": "1"} not in rows("recount", calls):
            yield f"{text} is not recounted as refused"
        if json.loads(works("twin", calls, "--json"))["compared"][0]["number"] != 1:
            yield f"{text} has a twin"
        reached = {row["figure"]: row["as_changed"] for row in rows("reach", calls, "--at", 2, "--severity", "major")}
        if reached["refused 33"] != "1" or reached["active at end major"] != "0":
            yield f"{text} reaches to {reached}"


def twins(_root):
    """The twins of texts at their limits are the same."""
    calls = listed(*(line(text, f"a{place}") for place, text in enumerate(FULL)))
    said = json.loads(works("twin", calls, "--json"))
    if not said["same"] or said["compared"][0]["number"] != len(FULL):
        yield f"{said}"


def aligned(_root):
    """The bars of a page stand in the same columns, counted in characters, whatever the texts are; long texts lose nothing."""
    texts = ["plain", "anémomètre gelé, à dégivrer", "過電流 84 ℃ → 🚡 停止", *FULL[1:5]]
    printed = works("replay", listed(*(line(text, f"a{place}") for place, text in enumerate(texts))), "--only", "active")
    yield from too_wide("characters", printed, PAGE_WIDTH)
    page = printed.decode()
    bars = {tuple(at for at, sign in enumerate(row) if sign in BARS) for row in page.splitlines()[1:]}
    if len(bars) != 1 or len(bars.pop()) != 5:
        yield f"the page is not in line: {page}"
    for sign in "é→停🚡":
        if page.count(sign) != "".join(texts).count(sign):
            yield f"{sign} is lost: {page}"


def stored(_root):
    """A longer text that is stored, of an active alarm or in history, is sound; one of more than 256 bytes is not."""
    register = WORK / "characters.register"
    works("replay", listed(line("")), "-o", register)
    whole = register.read_bytes()
    for head in (ACTIVE, HISTORY):
        at = int.from_bytes(whole[head:head + 4], "big") * WIDTH + TEXT
        for text in [*FULL, *LONG, "x" * 257]:
            data = text.encode()
            changed = whole[:at] + len(data).to_bytes(2, "big") + data + whole[at + 2 + len(data):]
            sound = len(data) <= LONGEST
            said = json.loads(works("check", saved("characters.register", changed), "--json", status=0 if sound else 1))
            if said["sound"] != sound or (not sound and said["places"][0]["byte"] != at):
                yield f"{len(text)} characters in {len(data)} bytes: {said}"


CHECKS = {
    "a character too many is named": named,
    "texts at their limits are taken": taken,
    "raises with a character too many are refused": refused,
    "twins of texts at their limits": twins,
    "pages are in line by characters": aligned,
    "registers with longer texts": stored,
}
