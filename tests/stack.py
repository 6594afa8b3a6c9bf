#!/usr/bin/env python3
"""The stack: no opening, no call and no panel call goes deeper than include/alarm_register.h says.

tests/stack.c measures; the lists here reach the deepest calls of every operation.
"""
import functools
import pathlib
import random
import re
import shutil
import subprocess
import sys
import tempfile

from checklist import HERE, Skip, run
from header import HEADER, LIBRARY, WARNINGS
from numbering import refusals

sys.path.insert(1, str(HERE / "compare"))
import always
import generate
import panel_lists
from calls import PLAIN, call
from cases import mixed
from orders import Open, Panel, Step, written
from reading import LONGEST, MOST_CODE_POINTS, NAMES, OPERATIONS

LIMIT = int(re.search(r"needs \d+ KiB \(([\d,]+) bytes\) of stack", (HERE / HEADER).read_text(encoding="utf-8")).group(1).replace(",", ""))
PROGRAM = HERE / "tests/stack.c"
CODE_POINTS = MOST_CODE_POINTS["text"]  # of a raise
OPENING, OTHER, LOOK, WRITE = 0, 255, 256, 257  # beside the operations
PAIRS = "pairs of severity and cause"
TITLES = {OPENING: "opening", **{op: f"{op} {name}" for op, (name, _) in OPERATIONS.items()}, OTHER: "calls without an operation",
          LOOK: "looks at the panel", WRITE: "writes to the panel"}
ANSWERS, REFUSALS = {(0, code) for code in range(1, 12)}, {(number, 0) for number in refusals(HERE)}


# ---- lists of calls

def largest(text, cause):
    """Values of all fields, with each string as long as it may be, in bytes and in code points; `text(n)` gives one of n bytes."""
    strings = {name: text(n) for name, n in LONGEST.items() if name in PLAIN}
    strings["text"] = strings["text"].decode()[:CODE_POINTS].encode()
    return strings | {"cause": cause, "object": (8, text(64), text(64), 65535), "scope": (0, text(64))}


SPACES = "\u2003".encode() * 10
FILLED = {
    "the longest strings": largest(lambda n: b"x" * n, b"other:" + b"a." * 44 + b"bb"),
    "the longest strings, not ASCII": largest(mixed, b"other:" + SPACES + b"a." * 14 + b"bb" + SPACES),
    "short strings": PLAIN,
}


def day(values, events):
    """Every operation and every answer, on a register of few records with room for so many audit events."""
    ids = [b"%d" % i + values["id"][1:] for i in range(4)]

    def send(op, i=0, **others):
        return call(op, **values | {"id": ids[i], "type": ids[i], "severity": i + 2, "end": 1} | others)

    calls = [send(1), send(1), send(1, severity=5), send(1, 1, id=ids[0]), send(1, 1), send(1, 2), send(1, 3), send(2, 3)]
    calls += [send(1, text=b"x" * (CODE_POINTS + 1))]
    calls += [send(op, i, authorised=flag) for op in (3, 4) for i in (0, 3) for flag in (0, 1)]
    policies = [(op, i, flags) for op in (5, 6, 13) for i in (0, 1, 3) for flags in ((1, 1), (1, 0), (0, 1), (0, 0))]
    calls += [send(op, i, critical_allowed=allowed, authorised=authorised) for op, i, (allowed, authorised) in policies]
    calls += [send(13, end=0), *(send(12, n=n) for n in (0, 1, 65535))]
    calls += [send(13, critical_allowed=1), send(13, 1, end=2), *(send(14, time=time) for time in (0, 2, 2)), send(12, n=65535)]
    calls += [send(8, severity_or_all=severity) for severity in (255, 2, 5, 0)]
    calls += [call(9, tenant=tenant, slice=slice_) for tenant in (None, values["tenant"], b"z") for slice_ in (None, values["slice"], b"z")]
    calls += [send(10), send(11), send(7, time=-1), send(2), send(2), send(7, time=9), send(7, time=9), send(11), b""]
    limits = (3, 4, events)
    return [generate.opened(limits), *(Step(data, room) for data in calls for room in (15, generate.ample(limits)))]


def many(causes):
    """So many alarms, each with a severity and a cause of its own, then the reports; at last all of them expire."""
    limits = (len(causes), len(causes), 1)
    raises = [call(1, id=b"%d" % i, object=(6, b"%d" % i), severity=i % 6, cause=cause) for i, cause in enumerate(causes)]
    reports = [call(8), call(8, severity_or_all=1), call(9), call(10), call(11)]
    empty = [call(7, time=1), call(8), call(9), call(10)]
    made, behind = ([Step(data, generate.ample(limits)) for data in calls] for calls in (raises + reports, empty))
    panels = [Panel(bytes(8)), Panel(at=1, value=0xFF), Panel(at=0, value=0xFF)]
    return [generate.opened(limits), *made, *panels, *behind, *panels]


def lists():
    """Names, and orders."""
    for name, values in FILLED.items():
        yield name, day(values, 2) + day(values, 99)
    for causes in ([b"lease-lost"], NAMES, [b"other:pair.%d" % i for i in range(1100)]):
        yield f"{PAIRS}: {len(causes)}", many(causes)
    yield "calls, good and damaged", [order for orders in always.every_call() for order in orders]
    rng = random.Random("stack")
    yield "lists by chance", [order for _ in range(20) for order in generate.fresh(rng, 100)]
    yield "registers, sound and not", generate.from_registers(rng, 1000)
    yield "openings that are refused", [generate.refused_opening(rng) for _ in range(40)]
    yield "panel blocks", [order for orders in (*panel_lists.blocks(), *panel_lists.held_blocks()) for order in orders]


# ---- what they take

def compiled(root, path):
    """The program of tests/stack.c over the root's library, put at a path."""
    if not shutil.which("gcc"):
        raise Skip("gcc is not on this machine")
    if not (root / LIBRARY).exists():
        raise Skip(f"{LIBRARY} is not built; `make lib` builds it")
    # C's functions are bound before the program starts: binding one at its first call takes stack of its own
    words = ["gcc", "-std=c99", "-O1", *WARNINGS, f"-I{root / 'include'}", PROGRAM, root / LIBRARY, "-Wl,-z,now", "-o", path]
    done = subprocess.run(words, stdout=subprocess.PIPE, stderr=subprocess.STDOUT, text=True)
    if done.returncode:
        raise OSError(done.stdout[:2000] or f"gcc: exit status {done.returncode}")


def operation_of(order):
    if isinstance(order, Open):
        return OPENING
    if isinstance(order, Panel):
        return LOOK if order.at is None else WRITE
    return order.call[0] if order.call[:1] and order.call[0] in OPERATIONS else OTHER


@functools.cache
def measured(root):
    """For each operation: depth, name of the list, number and code of all its calls."""
    found = {operation: [] for operation in TITLES}
    with tempfile.TemporaryDirectory() as folder:
        path = pathlib.Path(folder) / "stack"
        compiled(root, path)
        for name, orders in lists():
            done = subprocess.run([path, str(LIMIT)], input=written(orders), capture_output=True)
            if done.returncode:
                raise OSError(f"{name}: {done.stderr.decode() or f'exit status {done.returncode}'}")
            made = [order for order in orders if isinstance(order, (Open, Panel, Step))]
            for order, row in zip(made, done.stdout.splitlines(), strict=True):
                number, code, depth = map(int, row.split())
                found[operation_of(order)].append((depth, name, number, code))
    return found


def said(number, code):
    return f"refused with {number}" if number else f"answered with code {code}" if code else "done"


def within(operation):
    """A check: no call of an operation, and none of the panel, goes deeper than the limit."""
    def go(root):
        calls = measured(root)[operation]
        deepest, name, number, code = max(calls)
        print(f"stack: {TITLES[operation]}: at most {deepest:,} bytes in {len(calls):,} calls, at one that is {said(number, code)} ({name})")
        over = sum(depth > LIMIT for depth, *_ in calls)
        if over:
            yield f"{over:,} of {len(calls):,} calls take more than {LIMIT:,} bytes"
    return go


def met(root):
    """The calls meet every refusal that can be met, and every answer with long strings and with short ones; none on many pairs is refused."""
    calls = [call for calls in measured(root).values() for call in calls]
    for title in [None, *FILLED]:
        given = {(number, code) for _, name, number, code in calls if title in (None, name)}
        for outcome in sorted((ANSWERS if title else REFUSALS) - given):
            yield f"{title or 'all lists'}: no call is {said(*outcome)}"
    yield from (f"{name}: a call is refused with {number}" for _, name, number, _ in calls if number and name.startswith(PAIRS))


CHECKS = {title: within(operation) for operation, title in TITLES.items()} | {"every answer and every refusal is met": met}

if __name__ == "__main__":
    sys.exit(run("stack", CHECKS))
