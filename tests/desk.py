#!/usr/bin/env python3
"""The crate and the program `station`, built and used as a new user would: every command on good and on bad input."""
import csv
import io
import json
import pathlib
import re
import shutil
import subprocess
import sys
import tempfile

import characters
import panels
import times
import reaches
import recounts
import until
from checklist import HERE, Skip, run
from program import DAY, MONTH, PAGE_WIDTH, STATION, WORK, cargo, ends, ready, saved, station, too_wide, with_program, without_library, works

COMMANDS = ("write", "read", "replay", "recount", "twin", "reach", "panel", "check")
# The commands that run or print a list, with the options that they need.
ON_LISTS = {"read": [], "replay": [], "recount": [], "twin": [], "reach": ["--at", 23, "--severity", "minor"], "panel": []}
HELP_WIDTH = 83


def builds(_root):
    """Both crates build and pass their tests, without the network."""
    ready()
    for words in (["test"], ["build"]):
        done = cargo(*words)
        if done.returncode:
            yield from done.stdout.splitlines()[-30:]


def library_missing(_root):
    """Where the static library is missing one sentence says how to make it."""
    ready()
    with tempfile.TemporaryDirectory() as folder:
        done = cargo("build", ALARM_REGISTER_LIB=f"{folder}/libstation.a", CARGO_TARGET_DIR=folder)
    if done.returncode == 0 or "make it with `make lib` at the repository's root" not in done.stdout:
        yield done.stdout[-500:]


def helped(_root):
    """--help tells of each command, with its exit statuses; a command line that is not understood is told in a sentence."""
    for words in [["--help"], *([command, "--help"] for command in COMMANDS)]:
        said = works(*words)
        yield from too_wide(words, said, HELP_WIDTH)
        if b"Exit status" not in said:
            yield f"{words} has no exit statuses"
    yield from ends(2, "no command is given")
    yield from ends(2, "there is no command wriet", "wriet", "x")
    for command in COMMANDS:
        yield from ends(2, "one file is needed, and 0 are named", command)
        yield from ends(2, "there is no option --loud", command, "x", "--loud")
    yield from ends(2, "-o needs a value", "write", "x", "-o")
    yield from ends(2, "do not go together", "replay", "x", "--json", "--csv")
    yield from ends(2, "--zone takes a zone such as +01:00", "replay", "x", "--zone", "CET")


def written(_root):
    """Text becomes a list, the list becomes text, and both ways are inverse."""
    works("write", HERE / "examples/day.txt", "-o", DAY)
    month = subprocess.run([sys.executable, "-B", HERE / "examples/second-case/month.py"], capture_output=True, check=True).stdout
    works("write", "-", "-o", MONTH, given=month)
    for calls in (DAY, MONTH):
        text = works("read", calls)
        for other in (text, works("read", calls, "--zone", "+01:00"), works("read", calls, "--zone", "-09:30")):
            if works("write", "-", given=other) != calls.read_bytes():
                yield f"{calls.name} is another list after read and write"
        if works("read", "-", given=calls.read_bytes()) != text:
            yield f"{calls.name} reads otherwise from standard input"


def text_faults(_root):
    """Faults of a text have their line and column; what is no text, or cannot be written, is told."""
    head = "limits active=2 history=3 audit=1\n"
    yield from ends(3, "bad.txt: line 3, column 18: an operation is", "write", saved("bad.txt", head + "\n2026-03-14 09:30 rise id=a\n"))
    clear = "2026-03-14 09:30 clear type=t cause=sheave-wear object=tenant(a)\n"
    yield from ends(3, "line 2, column 37: the cause is not a known name", "write", "-", given=head + clear)
    yield from ends(3, "line 2: this is not text", "write", saved("junk.txt", head.encode() + b"\xff\xfe\x00"))
    yield from ends(3, "the register's limits are missing", "write", saved("empty.txt", ""))
    yield from ends(3, "line 2, column 1: no register opens with room for 0 active", "write", "-", given="\nlimits active=0 history=1 audit=1\n")
    yield from ends(4, "there is no such file", "write", WORK / "nowhere.txt")
    yield from ends(4, "cannot write", "write", HERE / "examples/day.txt", "-o", WORK / "nowhere/day.calls")
    yield from ends(4, "it is a folder", "write", HERE / "examples/day.txt", "-o", WORK)
    yield from ends(4, "cannot read", "write", WORK)
    kept = saved("kept.txt", head + "summary\n")
    yield from ends(2, "would be written over", "write", kept, "-o", WORK / "." / "kept.txt")
    if kept.read_text(encoding="utf-8") != head + "summary\n":
        yield "a text was written over"


def list_faults(_root):
    """Every command tells of a list that is none, or that was cut, and where."""
    whole = DAY.read_bytes()
    lists = [
        ("empty.calls", b"", "the file is empty"),
        ("junk.calls", bytes(range(256)) * 9, "not a list of calls"),
        ("text.calls", (HERE / "examples/day.txt").read_bytes(), "make the list with `station write`"),
        ("head.calls", whole[:20], "cut off inside its first 28 bytes"),
        ("call.calls", whole[:100], "cut off inside call 1"),
        ("mark.calls", whole[:-8], "cut off after call 32: the end mark is missing"),
        ("count.calls", whole[:-1], "cut off inside the end mark"),
        ("more.calls", whole + b"\0", "1 bytes follow the end mark"),
        ("version.calls", whole[:8] + b"\0\0\0\2" + whole[12:], "a list of version 2"),
    ]
    for name, data, said in lists:
        path = saved(name, data)
        for command, words in ON_LISTS.items():
            yield from ends(3, said, command, path, *words)
    limits = saved("limits.calls", whole[:12] + b"\xff" * 12 + whole[24:])
    for command, words in ON_LISTS.items():
        yield from ends(3, "20: a limit is 0 or above 65,535", command, limits, *words)
        yield from ends(4, "there is no such file", command, WORK / "nowhere.calls", *words)


def table(calls, name):
    """The rows of a table of a page, by CSV."""
    return list(csv.DictReader(io.StringIO(works("replay", calls, "--only", name, "--csv").decode(), newline="")))


def page(_root):
    """The day's page is the one that is shown, and the same tables come as JSON and CSV."""
    (HERE / "target/desk").mkdir(parents=True, exist_ok=True)
    shutil.copy(DAY, HERE / "target/desk/day.calls")
    if works("replay", "--zone", "+01:00", "target/desk/day.calls").decode() != (HERE / "examples/day.page").read_text(encoding="utf-8"):
        yield "examples/day.page is not what `station replay` prints"
    whole = json.loads(works("replay", DAY, "--json"))
    for name in ("active", "history", "audit", "counts", "answers", "summary"):
        rows = table(DAY, name)
        plain = [{key: "" if value is None else str(value) for key, value in row.items()} for row in whole[name]]
        if rows != plain or not rows:
            yield f"{name} differs between CSV and JSON"
    yield from ends(2, "--csv needs --only", "replay", DAY, "--csv")
    yield from ends(2, "--only takes one of active, history", "replay", DAY, "--only", "everything")
    yield from ends(4, "cannot write", "replay", DAY, "-o", WORK / "nowhere/day.register")


def headlines(_root):
    """Worst and readiness are of the alarms that are not suppressed, and how many are suppressed stands beside them, on the page and as CSV."""
    raised = "09:00 raise id={0} type=t severity={1} cause=lease-lost object=tenant({0})".format
    done = "09:01 {} id={} authorised=yes".format
    critical, suppressed = raised("a", "critical"), done("suppress", "a")
    for calls, said in [
        ([critical], (1, "critical", "not ready", 0)),
        ([critical, suppressed], (1, "none", "no impact", 1)),
        ([critical, done("acknowledge", "a")], (1, "critical", "not ready", 0)),
        ([critical, suppressed, raised("b", "major")], (2, "major", "degraded", 1)),
        ([critical, suppressed, raised("b", "cleared")], (2, "cleared", "no impact", 1)),
        ([critical, suppressed, critical], (1, "none", "no impact", 1)),
        ([critical, suppressed, done("acknowledge", "a")], (1, "critical", "not ready", 0)),
    ]:
        text = "\n".join(["limits active=4 history=9 audit=1", "day 14 March 2026", *calls]) + "\n"
        listed = saved("headline.calls", works("write", "-", given=text))
        [row] = table(listed, "summary")
        if tuple(row[name] for name in ("active", "worst", "readiness", "suppressed")) != tuple(map(str, said)):
            yield f"{calls}: {row}, not {said}"
        figures = works("recount", listed, "--csv").decode()
        names = ("active at end", "worst at end", "readiness at end", "suppressed at end")
        yield from (f"{calls}: not {name} {value}" for name, value in zip(names, said) if f"\n{name},{value}\n" not in figures)
        page = works("replay", listed, "--only", "summary").decode()
        yield from (f"{calls}: the page lacks {words}" for words in ("not suppressed", f" suppressed: {said[-1]} ") if words not in page)


def narrow(_root):
    """No page is wider than it may be, however long the fields are, and the longest of them lose nothing."""
    names = [f"{letter}" * 64 for letter in "BFGHJKNOP"]
    raised = '2026-12-24 23:59:58.123456789 raise id={0} type={1} severity=indeterminate cause=other:{2}.x object=queue({3},{4},65535)'
    raised += ' tenant={5} slice={6} region={7} text="' + "Q" * 120 + '"'
    acted = "2026-12-24 23:59:59.123456789 acknowledge-with-policy id={0} principal={1} tenant={2} scope=tenant({3}) correlation={4}"
    acted += " critical-allowed=no authorised=yes reason=" + "r" * 256
    text = "limits active=1 history=2 audit=1\n" + raised.format(*names) + "\n" + acted.format(*names) + "\n"
    calls = saved("wide.calls", works("write", "-", given=text))
    for name, printed in (("wide", works("replay", calls)), ("day", works("replay", DAY)), ("recount", works("recount", calls))):
        yield from too_wide(name, printed, PAGE_WIDTH)
    active = works("replay", calls, "--only", "active").decode()
    if active.count("Q") != 120 or active.count("O") != 64 or "24 Dec 2026" not in active:
        yield f"a wide row lost something: {active}"


def steered(_root):
    """A text that steers terminals, or breaks CSV and JSON, does neither."""
    text = 'a\x1b[31m"b",\nc\u202e'
    words = f'2026-03-14 09:30 raise id=a type=t severity=minor cause=lease-lost object=tenant(a) text="{text}"'
    words = words.replace('"b"', r'\"b\"').replace("\n", r"\n")
    calls = saved("text.calls", works("write", "-", given=f"limits active=1 history=1 audit=1\n{words}\n"))
    if b"\x1b" in works("replay", calls) or b"\x1b" in works("read", calls) or "\u202e".encode() in works("replay", calls):
        yield "a page lets a text steer the terminal"
    for rows in (json.loads(works("replay", calls, "--json"))["active"], table(calls, "active")):
        if rows[0]["text"] != text:
            yield f"{rows[0]['text']!r} is not the text"


def twins(_root):
    """Other texts and details change nothing else."""
    for calls, raises in ((DAY, 13), (MONTH, 3335)):
        said = json.loads(works("twin", calls, "--json"))
        if not said["same"] or said["compared"][0]["number"] != raises:
            yield f"{calls.name}: {said}"


def checked(_root):
    """A stored register is sound; a damaged one is not, and the damaged byte is where a person is sent."""
    register = WORK / "day.register"
    works("replay", DAY, "-o", register)
    if b"a sound register" not in works("check", register):
        yield "the day's register is not sound"
    whole = register.read_bytes()
    damages = [(3, 0), (19, 9), (100, 1), (39, 255), (1536 + 20, 6), (1536 * 2 + 3, 200)]
    for byte, value in damages:
        data = bytearray(whole)
        data[byte] = value
        said = json.loads(works("check", saved("damaged.register", bytes(data)), "--json", status=1))
        if said["sound"] or not any(abs(place["byte"] - byte) < 8 for place in said["places"]):
            yield f"byte {byte} as {value}: {said}"
    for data in (b"", bytes(range(256)), whole[:-1], whole + b"\0", MONTH.read_bytes()):
        if b"not a sound register (22)" not in works("check", saved("junk.register", data), status=1):
            yield f"{len(data)} bytes are sound"
    yield from ends(4, "there is no such file", "check", WORK / "nowhere.register")


def closed(_root):
    """A reader that stops early ends the program quietly; output that cannot be written is told."""
    with subprocess.Popen([STATION, "read", MONTH], stdout=subprocess.PIPE, stderr=subprocess.PIPE) as job:
        job.stdout.read(10)
        job.stdout.close()
        said = job.stderr.read()
    if job.returncode != 0 or said:
        yield f"closed pipe: status {job.returncode}, {said!r}"
    if pathlib.Path("/dev/full").exists():
        with open("/dev/full", "wb") as full:
            done = subprocess.run([STATION, "read", MONTH], stdout=full, stderr=subprocess.PIPE, text=True)
        if done.returncode != 4 or "cannot write standard output: the disk is full" not in done.stderr:
            yield f"full disk: status {done.returncode}, {done.stderr!r}"


def columns(root):
    """The columns that docs/CALLS.md promises to scripts are those that are printed."""
    page = (root / "docs/CALLS.md").read_text(encoding="utf-8")
    tables = re.findall(r"^\| ((?:`[a-z -]+`(?:, )?)+) \| ([a-z_, ]+) \|$", page, re.M)
    if len(tables) != 11:
        yield f"docs/CALLS.md has {len(tables)} tables"
    for names, promised in tables:
        for name in re.findall(r"`([a-z -]+)`", names):
            command, *words = name.split()
            words += ["examples/day.csv"] if words == ["--against"] else ON_LISTS.get(command, [])
            _, out, _ = station(command, *words, HERE / "examples/day.txt" if command == "check" else DAY, "--csv")
            if out.decode().split("\n")[0] != promised.replace(", ", ","):
                yield f"{name} has the columns {out.decode().splitlines()[:1]}"


def shown(root):
    """The lines that README.md shows of `make run` are printed in that order; `...` stands for lines left out."""
    _, found, rest = (root / "README.md").read_text(encoding="utf-8").partition("    $ make run\n")
    if not found:
        raise Skip("README.md shows no run yet")
    lines = []
    for line in rest.splitlines():
        if line and not line.startswith("    "):
            break
        lines.append(line[4:])
    done = subprocess.run([HERE / "examples/run"], capture_output=True, text=True, env=without_library())
    printed = iter(done.stdout.splitlines())
    for line in lines:
        if line and line != "..." and line not in printed:
            yield f"not printed, or not in this order: {line}"
            return


USES = {
    "help and command lines": helped,
    "write and read are inverse": written,
    "faults of texts": text_faults,
    "faults of lists": list_faults,
    "the page, JSON and CSV": page,
    "headlines": headlines,
    "pages are narrow enough": narrow,
    "texts do not steer": steered,
    **recounts.CHECKS,
    **times.CHECKS,
    **characters.CHECKS,
    **until.CHECKS,
    **reaches.CHECKS,
    **panels.CHECKS,
    "twins are the same": twins,
    "registers are checked": checked,
    "closed pipes and full disks": closed,
    "columns are those that are promised": columns,
    "README shows what is printed": shown,
}
CHECKS = {
    "both crates pass their tests": builds,
    "a missing library is told": library_missing,
    **{name: with_program(check) for name, check in USES.items()},
}

if __name__ == "__main__":
    try:
        sys.exit(run("desk", CHECKS))
    finally:
        shutil.rmtree(WORK)
