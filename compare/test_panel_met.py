"""What a run must meet of panel blocks (M-102), whether lists by chance hold them and leave other orders as they were, how blocks are compared
beside the Rust and between twins, and whether wrong blocks are noticed in the register's place. compare/test_differential.py runs these checks."""
import collections
import contextlib
import io
import json
import random
from unittest import mock

import differential
import generate
import panel_kinds
import panel_lists
import standin
import test_reach
import wrong_panel
from differential import Case, Tools, checked, fault_of, modelled, report
from headline import ACKNOWLEDGED, WITH_RUST
from orders import Given, Open, Panel, Step, results, written
from panel_kinds import ALARMS, NAMES, TWINS, tallied
from panel_lists import block
from records import WIDTH
from soundness import sound_chains
from test_balance import FRESH, raised, step
from test_raises_met import tally_of
from twins import differ

R, ACKNOWLEDGE, SUPPRESS, UNTIL, LIFT = step(1), step(3), step(4), step(13), step(14, time=1)
LOOK, KEPT = Panel(block(0x3F)), Panel()
DRIVER = Tools(driver="driver")
WRITE = Panel(block(0), 1, 0x3F)


# ---- kinds of calls

# orders, with kinds of the last one; other kinds of these names it has not
MET = [
    ([FRESH, LOOK], ["no alarm", "the former block is made anew where no alarm is active"]),
    ([FRESH, step(1, severity=0), LOOK], ["severity 0 lit", "severity 0 alone lit", "lit by a raised alarm", "a mask beyond the highest flag"]),
    ([FRESH, R, R, LOOK], ["severity 3 lit", "lit by an updated alarm", "a mask beyond the highest flag"]),
    ([FRESH, R, ACKNOWLEDGE, LOOK], ["an acknowledged alarm not lit", "all active alarms dark", "an alarm in history alone not lit"]),
    ([FRESH, R, SUPPRESS, LOOK], ["a suppressed alarm not lit", "all active alarms dark", "an alarm in history alone not lit"]),
    ([FRESH, R, LOOK, UNTIL, KEPT], ["a suppressed alarm not lit", "an alarm suppressed until a time not lit", "all active alarms dark",
                                     "an alarm in history alone not lit", panel_kinds.LEFT]),
    ([FRESH, R, UNTIL, LOOK, LIFT, KEPT], ["severity 3 lit", "lit by an updated alarm", "lit again by a lift", "a mask beyond the highest flag",
                                           panel_kinds.LEFT]),
    ([FRESH, R, UNTIL, LOOK, LIFT, R, KEPT], ["severity 3 lit", "lit by an updated alarm", "a mask beyond the highest flag", panel_kinds.LEFT]),
    ([FRESH, R, WRITE], ["severity 3 lit", "lit by a raised alarm", "a mask beyond the highest flag", "a write of the mask counts at once"]),
    ([FRESH, R, Panel(block(0))], ["severity 3 lit", "lit by a raised alarm", "mask 0 before flags"]),
    ([FRESH, R, Panel(block(7))], ["severity 3 lit", "lit by a raised alarm", "no flag let through by a mask"]),
    ([FRESH, R, step(1, id=b"b", object=(6, b"b"), severity=4), Panel(block(0x0F))],
     ["severity 3 lit", "severity 4 lit", "lit by a raised alarm", "several severities lit", "the highest flag hidden, a lower one shown"]),
    ([FRESH, Panel(bytes(8))], ["no alarm", "a block that is already so"]),
    ([FRESH, Panel(bytes([0, 0xC0, 0, 0, 0, 0, 0, 0]))],
     ["no alarm", "bits 6 and 7 become 0 at a look", "the former block is made anew where no alarm is active"]),
    ([FRESH, Panel(bytes(8), 1, 0xC0)], ["no alarm", "bits 6 and 7 become 0 at a write of the mask", "a block that is already so"]),
    ([FRESH, Panel(bytes(8), 257, 1)], ["no alarm", "a write to byte 257 is dropped", "a block that is already so"]),
    ([FRESH, Panel(bytes(8), 0, 1)], ["no alarm", "a write to byte 0 is dropped", "a block that is already so"]),
    ([FRESH, Panel(block(0xC0, 7))], ["30 with 7 bytes"]),
    ([FRESH, Panel(block(0x3F, 7))], []),
    ([FRESH, KEPT], ["30 with 0 bytes"]),
    ([Open((0, 1, 1), 9, 1), Panel(block(0xC0, 9), 1, 0xC0)], ["22 with 9 bytes at a write of the mask"]),
]
FORMER_OTHER = "every former byte but the mask is another"


def panels_of(tally):
    return collections.Counter({name: n for name, n in tally.items() if name.startswith("panel blocks: ")})


def met(_root):
    for orders, wanted in MET:
        found = panels_of(tally_of(orders)) - panels_of(tally_of(orders[:-1]))
        del found[tallied(FORMER_OTHER)]
        if found != {tallied(name): 1 for name in wanted}:
            yield f"{orders[1:]}: {dict(found)}, not {wanted}"


def lists_met(_root):
    """The lists that every run has meet every kind; those that the Rust is given, every kind of alarms."""
    tally = sum((tally_of(orders) for lists in (panel_lists.blocks, panel_lists.held_blocks) for orders in lists()), collections.Counter())
    yield from panel_kinds.missing(tally, NAMES)
    for lists, is_for in ((panel_lists.blocks, True), (panel_lists.held_blocks, False)):
        if any(differential.for_the_rust(orders) != is_for for orders in lists()):
            yield f"{lists}: not all of them are {'' if is_for else 'not '}for the Rust"


def unmet(_root):
    """A run must meet every kind; beside the Rust, where it is there."""
    full = collections.Counter([*map(tallied, [*NAMES, TWINS]), *(tallied(name, WITH_RUST) for name in ALARMS)])
    for by, names in (("", [*NAMES, TWINS]), (WITH_RUST, ALARMS)):
        for name in names:
            lacking = full - collections.Counter([tallied(name, by)])
            if panel_kinds.unmet(lacking, True) != [f"no {tallied(name, by)}"] or bool(panel_kinds.unmet(lacking, False)) != (by == ""):
                yield f"{tallied(name, by)} is not missed"


# ---- lists by chance

# what chance seldom comes to, and lists of every run have
SELDOM = ["lit again by a lift", "more than 255 active alarms", "a block that is already so", *panel_kinds.REFUSALS]


def by_chance(_root):
    """Panel calls by chance meet nearly every kind; without them the lists are as they were."""
    tally = collections.Counter()
    for seed in range(40):
        rng = random.Random(seed)
        orders = generate.from_registers(rng, 60) if seed % 4 == 0 else generate.fresh(rng, 60, timed=seed % 4 == 1)
        found = panel_lists.by_chance(seed, orders)
        checked(Case(found), Tools(), tally)
        if [order for order in found if not isinstance(order, Panel)] != orders:
            yield f"seed {seed}: other orders are changed"
    yield from panel_kinds.missing(tally, [name for name in NAMES if name not in SELDOM])
    if list(standin.read(written(found))) != found:
        yield "orders are not read as they are written"


# ---- twins

def twins(_root):
    """Panel blocks of twins are equal, and blocks that are not are noticed."""
    tally = collections.Counter()
    for seed in range(8):
        rng = random.Random(seed)
        orders = panel_lists.by_chance(seed, generate.fresh(rng, 40))
        checked(Case(orders, list(generate.twin(rng, orders))), Tools(), tally)
    yield from panel_kinds.missing(tally, [TWINS])
    one, other = ([*modelled([FRESH, step(1, severity=severity), LOOK])][-1] for severity in (3, 4))
    if differ(LOOK, one, other) != f"twins: panel blocks {one.answer.hex()} and {other.answer.hex()}":
        yield f"blocks that differ: {differ(LOOK, one, other)}"


def lit_by_text(_root):
    """A lamp that a text lights is noticed between twins."""
    orders, twin = ([FRESH, step(1, text=text), LOOK] for text in (b"", b"x"))
    with wrong_panel.lit(lambda alarm: alarm["text"] == b"x")():
        found = fault_of(Case(orders, twin), Tools())
    if not found or not found[1].startswith("twins: panel blocks 00"):
        yield f"{found}"


# ---- beside the Rust

def beside(_root):
    """The Rust's own active alarms, with their states, say which flags and which active length a block has; a refused call compares nothing."""
    orders = [FRESH, LOOK, R, LOOK, Step(b"", 9), LOOK, Panel(b""), ACKNOWLEDGE, LOOK, raised(b"b"), LOOK, FRESH, LOOK]
    lines = test_reach.spoken(None, orders).decode()
    if rust_fault(orders, lines):
        yield f"{rust_fault(orders, lines)}"
    rows = lines.splitlines()
    said = json.loads(rows[7])
    said["state"]["active"][0]["state"] = 0
    for name, changed, wanted in [
        ("a state", rows[:7] + [json.dumps(said)] + rows[8:], None),
        ("a panel order that is not passed over", rows[:3] + ["refused 23"] + rows[4:], (3, "the Rust: refused 23")),
    ]:
        found = rust_fault(orders, "\n".join(changed) + "\n")
        if not found or wanted and found != wanted:
            yield f"{name}: {found}"
    for state, length, wanted in ((ACKNOWLEDGED, 1, "(8, 1), by the Rust (0, 1)"), (0, 2, "(8, 1), by the Rust (8, 2)")):
        active = [{"severity": 3, "state": state}] * length
        found = panel_kinds.rust_fault(collections.Counter(), active, [*modelled([FRESH, R, LOOK])][-1])
        if found != f"flags and active length {wanted}":
            yield f"{found}"


def rust_fault(orders, lines):
    """What is found beside these lines of the oracle; None where nothing is."""
    with mock.patch.object(differential, "ran", lambda *_: lines.encode()):
        return fault_of(Case(orders), Tools(oracle="oracle"))


# ---- wrong blocks in the register's place

# on each register: masks, writes within the block and behind it, blocks not of eight bytes
PANELS = [*(Panel(block(mask)) for mask in (0, 8, 0x3F, 0x7F, 0xFF)), *(Panel(block(0xFF), 1, value) for value in (0, 8, 0xFF)),
          *(Panel(block(0xD5), at, 0x2A) for at in (0, 2, 3, 4, 7, 8, 9, 257, 65537)), Panel(block(0xFF, 7)), Panel(block(0xFF, 9), 1, 8), KEPT]
RB = step(1, id=b"b", object=(6, b"b"), severity=4)


def some_list():
    """Alarms in every state, several of them, none; registers that are not sound."""
    parts = [[], [R], [R, R], [R, ACKNOWLEDGE], [R, SUPPRESS], [R, SUPPRESS, R], [R, UNTIL], [R, UNTIL, LIFT], [R, step(2)], [R, RB],
             [step(1, severity=0)], [step(1, severity=5), RB], [RB, step(1, severity=0)]]
    orders = [order for part in parts for order in (FRESH, *part, *PANELS)]
    return [*orders, Given(bytes(9)), *PANELS, Panel(block(0xC0)), *damaged()]


def long_list():
    return [panel_lists.many(300), Panel(block(0x3F))]


def damaged():
    """Looks at registers that one record makes unsound, on each chain."""
    register = bytes([*modelled([FRESH, R, step(5)])][-1].register)
    for chain in sound_chains(register):
        place = WIDTH * (chain[0] + 1) - 1
        yield from (Given(register[:place] + b"\1" + register[place + 1:]), Panel(block(0xC0)))


def short_list():
    """An acknowledged alarm that is looked at."""
    return [FRESH, R, Panel(bytes(8)), ACKNOWLEDGE, Panel(bytes(8), 1, 8), KEPT]


ACKNOWLEDGED_LIT = "acknowledged alarms lit"


def standing_in(wrong):
    """What compare/standin.py writes for a list, with a wrong way: it is at an end before the model's own outcomes are asked for."""
    def ran(_path, orders):
        out = io.BytesIO()
        with wrong():
            standin.write(out, list(standin.read(written(orders))))
        return out.getvalue()
    return mock.patch.object(differential, "ran", ran)


def noticed(_root):
    """Each wrong way is noticed in the register's place, and none is where there is none."""
    cases = Case(some_list()), Case(long_list())
    with standing_in(contextlib.nullcontext):
        if any(fault_of(case, DRIVER) for case in cases):
            yield f"without a fault: {[fault_of(case, DRIVER) for case in cases]}"
    for name, wrong in wrong_panel.WRONG.items():
        with standing_in(wrong):
            found = next(filter(None, (fault_of(case, DRIVER) for case in cases)), None)
        if not found or found[1] == "the driver ended":
            yield f"{name}: {found}"


def made_small(_root):
    """A list that shows a wrong block is made small, and its report says what was called and which bytes differ."""
    with standing_in(wrong_panel.WRONG[ACKNOWLEDGED_LIT]):
        found = report(Case(short_list()), DRIVER).splitlines()
    if found[0] != "after order 3: block 0808040100000001, by the model 0008000000000001" or len(found) != 6:
        yield f"{found}"
    if found[-1] != "  3 panel write of 8 to byte 1, on the block 0000000000000000":
        yield found[-1]


def whole_blocks(_root):
    """The stand-in writes the whole block, its zeros at the end too."""
    orders, out = [FRESH, Panel(bytes(9)), Given(b""), Panel(bytes(3), 1, 255)], io.BytesIO()
    standin.write(out, orders)
    found = list(results(out.getvalue()))[1::2]
    if found != [(30, 0, bytes(9), []), (22, 0, bytes(3), [])]:
        yield f"{found}"


CHECKS = {
    "panel: kinds of calls": met,
    "panel: lists of every run": lists_met,
    "panel: what a run must meet": unmet,
    "panel: lists by chance": by_chance,
    "panel: twins": twins,
    "panel: a text that lights a lamp": lit_by_text,
    "panel: beside the Rust": beside,
    "panel: whole blocks": whole_blocks,
    "panel: wrong blocks are noticed": noticed,
    "panel: a failing list is made small": made_small,
}
