#!/usr/bin/env python3
"""Whether the comparison notices: the model in the register's place, with and without faults, twins that are none, a balance that fails,
a severity that reaches too far, a headline that is not M-103's, raises that are not M-100's, texts that are not measured as by M-104, alarms
that are not suppressed until a time as by M-105, panel blocks that are not M-102's."""
import collections
import os
import pathlib
import random
import shutil
import sys

import imports  # noqa: F401  (finds the list of checks)
import generate
import standin
import test_balance
import test_characters
import test_characters_met
import test_ends
import test_ends_met
import test_headline
import test_panel
import test_panel_met
import test_raises
import test_raises_met
import test_reach
import test_reach_figures
import wrong_characters
import wrong_ends
import wrong_lifts
import wrong_raises
from calls import call
from checklist import run
from differential import Case, Outcome, Rust, Tools, checked, fault_of, modelled, report, shrunk
from orders import Step
from original import Original
from records import LAYOUT, unlinked
from twins import differ, masked_register

STANDIN = Tools(driver=str(pathlib.Path(standin.__file__).resolve()))


def some_list():
    rng = random.Random(8)
    head = [Step(data, 2000, 1) for data in (call(1), call(1, object=(6, b"b")), call(2))]
    tail = [Step(data, 2000, 1) for data in (call(2), call(1), call(1, id=b"b", severity=4), call(2), call(3, id=b"i" * 65), call(11))]
    return [generate.opened((2, 3, 1)), *head, *generate.steps(rng, 60, 8000), *tail, Step(call(1), 2000, 1), Step(call(1, type=b"z"), 2000, 1)]


def faultless(_root):
    os.environ["FAULT"] = ""
    tally = collections.Counter()
    checked(Case(some_list()), STANDIN, tally)
    if tally["calls"] != 71:
        yield f"{tally['calls']} calls"


def noticed(fault, orders=some_list):
    def check(_root):
        os.environ["FAULT"] = fault
        case, found = Case(orders()), None
        if not fault_of(case, STANDIN):
            yield "is not noticed"
            return
        case, found = shrunk(case, STANDIN)
        if len(case.orders) > 4:
            yield f"the list is not made small: {len(case.orders)} orders"
        if found[1] == "the driver ended":
            yield found[1]
        if found[0] != len(case.orders) - 1 or not report(case, STANDIN).startswith(f"after order {found[0]}: "):
            yield f"the report is about order {found[0]} of {len(case.orders)}"
    return check


def none_wrong(*lists):
    def check(_root):
        os.environ["FAULT"] = ""
        for orders in lists:
            if fault_of(Case(orders()), STANDIN):
                yield f"{fault_of(Case(orders()), STANDIN)}"
    return check


def noticed_in_many(fault, orders):
    """The list is of many short ones, and is not made small."""
    def check(_root):
        os.environ["FAULT"] = fault
        found = fault_of(Case(orders()), STANDIN)
        if not found or found[1] == "the driver ended":
            yield f"{found}"
    return check


def ended(_root):
    """A driver that ends early is a fault."""
    if not fault_of(Case(some_list()), Tools(driver=shutil.which("false"))):
        yield "a driver that writes nothing passes"
    if not fault_of(Case(some_list()), Tools(oracle=shutil.which("false"))):
        yield "an oracle that writes nothing passes"


def rooms(_root):
    """A list of history that has room here and none in the Rust is no fault where the limit cut a run that expired together, and else is one."""
    for op, is_cut in ((9, True), (9, False), (8, True)):
        rust = Rust(shutil.which("true"), [], collections.Counter())
        rust.original = Original()
        rust.original.is_cut = is_cut
        found = rust.step_difference(bytes([op]), Outcome(0, 16, bytearray(16), bytearray()), "refused 30")
        if (found is None) != (op == 9 and is_cut):
            yield f"operation {op}, a run {'cut' if is_cut else 'whole'}: {found}"


def twins(_root):
    orders = some_list()
    good = list(generate.twin(random.Random(1), orders))
    if good == orders:
        yield "the twin is the list itself"
    if fault_of(Case(orders, good), Tools()):
        yield f"twins differ: {fault_of(Case(orders, good), Tools())}"
    for name, values in {"severity": dict(severity=1), "time": dict(time=9), "tenant": dict(tenant=b"x")}.items():
        first, *rest = orders
        one, other = ([first, Step(data, 2000), *rest] for data in (call(1), call(1, **values)))
        if not any(map(differ, one, modelled(one), modelled(other))):
            yield f"lists that differ in {name} pass for twins"


def mask(_root):
    """Masking zeroes the bytes of text and details, and no other."""
    orders = [generate.opened((1, 1, 1)), Step(call(1, text=test_characters.FULL, details=b"d" * 512), 2000)]
    register = bytes([*modelled(orders)][-1].register)
    plain = unlinked(masked_register(register), 1)
    fields = LAYOUT["alarm"]
    start, end = fields["text"]["len"][0], fields["details"]["at"] + 512
    if plain != unlinked(register, 1)[:start] + bytes(end - start) + unlinked(register, 1)[end:]:
        yield "other bytes are masked"


CHECKS = {
    "the model in the register's place": faultless,
    **{f"a fault is noticed: {name.replace('_', ' ')}": noticed(name) for name in standin.FAULTS},
    **{f"a wrong summary is noticed: {name}": noticed(name, test_headline.some_list) for name in standin.SUMMARIES},
    **{f"wrong raises are noticed: {name}": noticed(name, test_raises_met.some_list) for name in wrong_raises.WRONG},
    **{f"wrong raises are noticed: {name}": noticed(name, test_raises_met.given_list) for name in wrong_raises.WRONG_ON_GIVEN},
    **{f"wrong texts are noticed: {name}": noticed(name, test_characters_met.some_list) for name in wrong_characters.WRONG},
    **{f"wrong texts are noticed: {name}": noticed(name, test_characters_met.given_list) for name in wrong_characters.WRONG_ON_GIVEN},
    "no wrong ends": none_wrong(test_ends_met.some_list, test_ends_met.given_list),
    **{f"wrong ends are noticed: {name}": noticed_in_many(name, test_ends_met.some_list) for name in wrong_ends.WRONG | wrong_lifts.WRONG},
    **{f"wrong ends are noticed: {name}": noticed_in_many(name, test_ends_met.given_list) for name in wrong_lifts.WRONG_ON_GIVEN},
    "no wrong panel blocks": none_wrong(test_panel_met.some_list, test_panel_met.short_list),
    "wrong panel blocks are noticed": noticed_in_many(test_panel_met.ACKNOWLEDGED_LIT, test_panel_met.short_list),
    "programs that end": ended,
    "room that hangs on chance": rooms,
    "twins": twins,
    "the mask": mask,
    **test_balance.CHECKS,
    **test_characters.CHECKS,
    **test_characters_met.CHECKS,
    **test_ends.CHECKS,
    **test_ends_met.CHECKS,
    **test_headline.CHECKS,
    **test_panel.CHECKS,
    **test_panel_met.CHECKS,
    **test_raises.CHECKS,
    **test_raises_met.CHECKS,
    **test_reach.CHECKS,
    **test_reach_figures.CHECKS,
}

if __name__ == "__main__":
    sys.exit(run("differential", CHECKS))
