"""A list of calls stepped by the model and, beside it, by the register and by the Rust: every byte is the same, and the list balances.
Where a case has a second list, the law of the two is checked as well: that of twins, or of one severity entered wrong."""
import collections
import functools
import json
import subprocess
from typing import NamedTuple, Optional

import imports  # noqa: F401  (finds the reading of calls, and the table of numbers)
import characters
import ends
import headline
import model
import numbering
import panel
import panel_kinds
import raises
from balance import BY_RUST, Balance, RegisterBalance
from orders import Counters, Given, Open, Panel, Step, results, shown, written
from original import Original, active_shown
from reach import Reach
from records import ROOT, put_number
from timed import is_timed
from twins import Twins


class Tools(NamedTuple):
    """Paths of the two programs; None where one is not there."""
    driver: Optional[str] = None
    oracle: Optional[str] = None


class Case(NamedTuple):
    """A list of orders, and a second one if it has one: its twin, or itself with one severity entered wrong."""
    orders: list
    twin: Optional[list] = None
    mistaken: Optional[list] = None

    def lists(self):
        return [orders for orders in self if orders]

    def calls(self):
        return sum(isinstance(order, Step) for orders in self.lists() for order in orders)


class Difference(Exception):
    """The place of the order after which something differs, and what."""


class Outcome(NamedTuple):
    """What an order gives: number, length, the answer slice or the panel block, the register; where the Rust follows, the severities of its
    active list."""
    number: int
    length: int
    answer: bytearray
    register: bytearray
    rust: Optional[list] = None


def modelled(orders):
    """The model's outcomes. The register is one and the same for all of them: it holds until the next is asked for."""
    register, block = bytearray(), bytearray()
    for order in orders:
        number, length, answer = 0, 0, bytearray()
        if isinstance(order, Open):
            register = bytearray([order.former]) * order.size
            number = model.open(register, *order.limits)
        elif isinstance(order, Given):
            register = bytearray(order.register)
        elif isinstance(order, Counters):
            put_number(register, "successes", order.successes)
            put_number(register, "failures", order.failures)
        elif isinstance(order, Panel):
            block = bytearray(block if order.block is None else order.block)
            number, length = panel.called(register, block, order.at, order.value)
            answer = bytearray(block)
        else:
            answer = bytearray([order.former]) * order.room
            number, length = model.step(register, order.call, answer)
        yield Outcome(number, length, answer, register)


def ran(path, orders):
    """What a program writes for a list; where it ends badly or does not end, what it wrote until then."""
    try:
        return subprocess.run([path, "run"], input=written(orders), stdout=subprocess.PIPE, stderr=subprocess.DEVNULL, timeout=60).stdout
    except subprocess.TimeoutExpired as late:
        return late.stdout or b""


class Register:
    """The register of the driver, followed by the changes that it reports."""

    def __init__(self, path, orders):
        self.bytes, self.results = bytearray(), results(ran(path, orders))

    def difference(self, order, outcome):
        try:
            number, length, answer, changes = next(self.results)
        except StopIteration:
            return "the driver ended"
        if isinstance(order, Open):
            self.bytes = bytearray([order.former]) * order.size
        elif isinstance(order, Given):
            self.bytes = bytearray(order.register)
        for at, data in changes:
            self.bytes[at:at + len(data)] = data
        if (number, length) != outcome[:2]:
            return f"number {number} and length {length}, by the model {outcome[:2]}"
        if isinstance(order, Step):
            wanted = outcome.answer.rstrip(bytes([order.former]))
            if answer != wanted:
                return f"answer: {unequal(answer, wanted)}"
        if isinstance(order, Panel) and answer != outcome.answer:
            return f"block {answer.hex()}, by the model {outcome.answer.hex()}"
        if self.bytes != outcome.register:
            return f"register: {unequal(self.bytes, outcome.register)}"
        return None


class Rust:
    """The lines of the oracle. Balance and raises are by what these say, not by the register: the Rust's own answers and active list."""

    def __init__(self, path, orders, tally):
        self.lines, self.tally = iter(ran(path, orders).decode().split("\n")[:-1]), tally
        self.original = self.balance = self.raises = self.severities = None
        self.active = []

    def difference(self, order, outcome):
        found = next(self.lines, "the oracle ended")
        if isinstance(order, Step):
            return self.step_difference(order.call, outcome, found)
        if isinstance(order, Panel):
            fault = panel_kinds.rust_fault(self.tally, self.active, outcome) if found == "panel" else found
            return fault and f"the Rust: {fault}"
        if isinstance(order, Open):
            self.active = []
            self.original, self.balance, self.raises, self.severities = Original(), Balance(0, self.tally, BY_RUST), raises.Answers(), []
            return None if found == ("refused 20" if outcome.number else "opened") else found
        return None

    def step_difference(self, call, outcome, found):
        if not found.startswith("{"):
            alike = found == f"refused {outcome.number}" or (found, outcome.number) == ("refused 30", 0) and self.original.room_is_chance(call)
            return None if alike else f"the Rust: {found}; here: number {outcome.number}"
        said = json.loads(found)
        active = self.active = said["state"]["active"]
        self.severities = [alarm["severity"] for alarm in active]
        if call[0] == headline.SUMMARY:
            headline.count(self.tally, active, headline.WITH_RUST)
        self.balance.count(call[0], said["code"], said["number"])
        fault = self.balance.fault(len(self.severities))
        if fault:
            return f"the Rust: {fault}"
        self.raises.follow(call[0], said)
        self.raises.count(self.tally)
        answer = outcome.answer[:outcome.length]
        fault = self.original.difference(call, outcome.number, answer, outcome.register, dict(said))
        return fault or self.raises.fault(said, answer, outcome.register)


def unequal(found, wanted):
    """The first place at which bytes differ."""
    at = next((i for i, (x, y) in enumerate(zip(found, wanted)) if x != y), min(len(found), len(wanted)))
    return f"from byte {at} (record {at // 1536}, byte {at % 1536}) {found[at:at + 8].hex()}, by the model {wanted[at:at + 8].hex()}"


def for_the_rust(orders):
    """Whether the Rust can follow: it has no register in bytes, no slice to open, and no operations 13 and 14 (M-105)."""
    if any(isinstance(order, Given) or isinstance(order, Step) and is_timed(order.call) for order in orders):
        return False
    return all(model.open(bytearray(order.size), *order.limits) != 21 for order in orders if isinstance(order, Open))


def outcomes(orders, tools, tally):
    """The model's outcomes, each found equal by the programs that are there: where the register is one, their balance is its own."""
    checks = [Register(tools.driver, orders).difference] if tools.driver else []
    rust = Rust(tools.oracle, orders, tally) if tools.oracle and for_the_rust(orders) else None
    checks += [rust.difference] if rust else []
    checks.append(RegisterBalance(tally).fault)
    for place, (order, outcome) in enumerate(zip(orders, modelled(orders))):
        for check in checks:
            fault = check(order, outcome)
            if fault:
                raise Difference(place, fault)
        yield outcome._replace(rust=rust.severities) if rust else outcome


# ---- a case

def law(case, tally):
    """What of the outcomes of an order breaks the law of a case's two lists; one list has none."""
    if case.mistaken:
        return Reach(case.orders, case.mistaken, tally).fault
    if case.twin:
        return Twins(case.orders, case.twin, *(functools.partial(count, tally) for count in (characters.count_twins, panel_kinds.count_twins))).fault
    return lambda order, outcome: None


def checked(case, tools, tally):
    """Raises Difference where a case shows one; counts what its calls gave."""
    sides, broken = [counted(orders, tools, tally) for orders in case.lists()], law(case, tally)
    for place, (order, *found) in enumerate(zip(case.orders, *sides)):
        fault = broken(order, *found)
        if fault:
            raise Difference(place, fault)


# ---- what calls gave

# the codes that each operation's answers have
CODES = {1: (1, 2, 5), 2: (3, 4), 3: (7, 8, 10), 4: (6, 8, 10), 5: (7, 8, 9, 10), 6: (6, 8, 9, 10)} | {op: (11,) for op in range(7, 13)}
CODES |= {13: CODES[6], 14: (11,)}
ANSWERS = [f"operation {op} code {code}" for op, codes in CODES.items() for code in codes]
SUMMARIES = f"operation {headline.SUMMARY} code 11"


def refusals(first):
    """The refusals of docs/NUMBERS.md from this number on."""
    return [f"number {number}" for number in numbering.refusals(ROOT) if number >= first]


def result_name(order, outcome):
    """The refusal's number, or operation and code; None for an opening that is not refused, and for a panel call, which has kinds of its own."""
    if isinstance(order, Panel):
        return None
    if outcome.number:
        return f"number {outcome.number}"
    return f"operation {order.call[0]} code {outcome.answer[0]}" if isinstance(order, Step) else None


def counted(orders, tools, tally):
    """The outcomes, each counted by its name; of summaries, raises, texts, ends and panel blocks, their kinds."""
    by_rust = bool(tools.oracle) and for_the_rust(orders)
    kinds = [raises.Met(tally), characters.Met(tally, by_rust), ends.Met(tally, orders), panel_kinds.Met(tally)]
    for order, outcome in zip(orders, outcomes(orders, tools, tally)):
        if isinstance(order, Step):
            tally["calls"] += 1
            tally["calls that the Rust made"] += by_rust
        name = result_name(order, outcome)
        if name:
            tally[name] += 1
        if name == SUMMARIES:
            headline.count(tally, active_shown(outcome.register))
        for met in kinds:
            met.see(order, outcome)
        yield outcome


# ---- a failing list, made small

def fault_of(case, tools):
    try:
        checked(case, tools, collections.Counter())
    except Difference as difference:
        return difference.args
    return None


def without(case, start, end):
    return Case(*(orders and orders[:start] + orders[end:] for orders in case))


def shrunk(case, tools):
    """The smallest list that is found by leaving out stretches of a failing one, and its difference."""
    fault = fault_of(case, tools)
    case = without(case, fault[0] + 1, len(case.orders))
    size = len(case.orders) // 2
    while size > 0:
        start = 1
        while start < len(case.orders):
            smaller = without(case, start, start + size)
            found = fault_of(smaller, tools)
            if found:
                case, fault = without(smaller, found[0] + 1, len(smaller.orders)), found
            else:
                start += size
        size //= 2
    return case, fault


def report(case, tools):
    """A failing case, made small, as text."""
    case, (place, fault) = shrunk(case, tools)
    rows = [f"after order {place}: {fault}"]
    for name, orders in zip(("a list:", "its twin:", "the list with another severity:"), case):
        rows += [name, *(f"  {i} {shown(order)}" for i, order in enumerate(orders))] if orders else []
    return "\n".join(rows)
