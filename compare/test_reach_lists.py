"""Whether any list of few calls lets one wrong severity reach further than M-113 says: all of them, by the model.

Lists that lead to the same register go on as one, so that each register is stepped once by each call. compare/test_reach.py runs these
checks."""
import functools
import itertools
import zlib
from unittest import mock

import generate
import model
import reach
from calls import call
from differential import Outcome, modelled
from orders import Step
from records import LAYOUT, WIDTH
from soundness import sound_chains

SEVERITIES = (3, 4, 5)


def raised(name, severity, time=0):
    return call(1, id=name, object=(6, name), severity=severity, time=time)


# by key; their times differ, so that an expiry may end one alarm alone
RAISES = [[raised(name, severity, time) for severity in SEVERITIES] for name, time in ((b"a", 0), (b"b", 2))]
CALLS = [*itertools.chain(*RAISES), call(1, object=(6, b"b")), call(2), call(2, object=(6, b"b"), time=3), call(3, time=3), call(4, time=1),
         call(4, id=b"b", time=1), call(7, time=1), call(7, time=3)]
LIFT = call(14, time=1)


class Registers:
    """Registers by number, each step made once."""

    def __init__(self, start):
        self.packed, self.numbers = [], {}
        self.start = self.number(bytes(start))
        self.outcome, self.active = functools.cache(self.stepped), functools.cache(lambda n: reach.in_register(self.register(n)))

    def number(self, register):
        packed = zlib.compress(register, 1)
        if packed not in self.numbers:
            self.numbers[packed] = len(self.packed)
            self.packed.append(packed)
        return self.numbers[packed]

    def register(self, n):
        return bytearray(zlib.decompress(self.packed[n]))

    def stepped(self, n, data):
        """The register that a call leaves, and what it returned and told."""
        register, answer = self.register(n), bytearray(1552)
        found, length = model.step(register, data, answer)
        return self.number(bytes(register)), Outcome(found, length, answer[:16], None)

    def step(self, n, data):
        return self.outcome(n, data)[0]

    def told(self, one, other):
        """What breaks the law between what two calls told, each with its register."""
        return reach.told(Step(one[1], 1552), self.outcome(*one)[1], self.outcome(*other)[1])

    def mistakes(self, n):
        """The two raises of each mistake on a register, and their severities."""
        for raises in RAISES:
            for one, other in itertools.combinations(range(len(SEVERITIES)), 2):
                yield (n, raises[one]), (n, raises[other]), (SEVERITIES[one], SEVERITIES[other])

    def broken(self, one, other, entered):
        return reach.broken(self.active(one), self.active(other), entered)


def searched(start, calls, length):
    """What breaks the law within so many calls, or None; how many pairs of different registers are met; whether longer lists meet no more."""
    registers = Registers(start)
    reached, pairs = {registers.start}, set()
    singles, behind = set(reached), set()
    for _ in range(length):
        steps = {((one, data), (other, data), entered) for one, other, entered in behind for data in calls}
        steps |= {mistake for n in singles for mistake in registers.mistakes(n)}
        behind = {(registers.step(*one), registers.step(*other), entered) for one, other, entered in steps}
        behind = {pair for pair in behind - pairs if pair[0] != pair[1]}
        faults = itertools.chain((registers.broken(*pair) for pair in behind), (registers.told(one, other) for one, other, _ in steps))
        fault = next(filter(None, faults), None)
        singles = {registers.step(n, data) for n in singles for data in calls} - reached
        reached, pairs = reached | singles, pairs | behind
        if fault or not (behind or singles):
            return fault, len(pairs), not fault
    return None, len(pairs), False


def opened(*limits):
    return [*modelled([generate.opened(limits)])][-1].register


def doubled():
    """A sound register that no list reaches: two active alarms with one key and one id, the second of the middle severity."""
    register = bytearray([*modelled([generate.opened((3, 3, 1)), *(Step(raised(name, 3), 1552) for name in (b"a", b"b"))])][-1].register)
    one, other = (WIDTH * index for index in sound_chains(register)[0])
    severity = other + LAYOUT["alarm"]["severity"]
    register[other + 4:other + WIDTH], register[severity] = register[one + 4:one + WIDTH], SEVERITIES[1]
    return register


def suppressed():
    """A register on which two alarms are suppressed, one of them until a time: policy calls stand before the raises of the lists."""
    calls = [raised(b"a", 3), raised(b"b", 3), call(13), call(4, id=b"b")]
    return [*modelled([generate.opened((2, 4, 1)), *(Step(data, 1552) for data in calls)])][-1].register


def closed(_root):
    """With limits 1, 1, 1 the lists of these calls lead to few registers: all lists of any length keep the law.

    Raises (M-100) are held at 2 here, else every update would lead to another register.
    """
    with mock.patch.object(model, "MOST_RAISES", 2):
        fault, pairs_met, whole = searched(opened(1, 1, 1), CALLS, 20)
    if fault or not whole or not pairs_met:
        yield f"{fault}; {pairs_met} pairs; {'all' if whole else 'not all'}"


def short(_root):
    """Every list of up to five calls on a fresh register, of up to four on one that no list reaches, and of up to three, with lifts, on one with
    suppressed alarms."""
    for start, calls, length, least in ((opened(2, 3, 1), CALLS, 5, 10000), (doubled(), CALLS, 4, 1000), (suppressed(), [*CALLS, LIFT], 3, 1000)):
        fault, pairs_met, _ = searched(start, calls, length)
        if fault or pairs_met < least:
            yield f"{fault}; {pairs_met} pairs"


def search_finds(_root):
    """With an answered policy call among the calls the search finds that the law is broken: by active lengths, and by what is told alone."""
    calls = [*CALLS, call(6, time=3)]
    found = searched(opened(1, 1, 1), calls, 3)[0]
    with mock.patch.object(reach, "broken", lambda *_: None):
        told = searched(opened(1, 1, 1), calls, 3)[0]
    if not (found and found.startswith("active lengths ") and told and told.startswith("operation 7: number 0, head 0b")):
        yield f"found are {found}; {told}"


def raises_told(_root):
    """What the two raises of a mistake tell is compared."""
    def by_severity(register, data, answer):
        found, length = stepped(register, data, answer)
        answer[0] ^= data[:1] == reach.RAISE and data[reach.severity_at(data)] == SEVERITIES[-1]
        return found, length
    stepped = model.step
    with mock.patch.object(model, "step", by_severity):
        found = searched(opened(1, 1, 1), [], 1)[0]
    if not (found and found.startswith("operation 1: number 0, head 01")):
        yield f"found is {found}"


CHECKS = {
    "one severity: all lists on the smallest register": closed,
    "one severity: all short lists": short,
    "one severity: the search finds what policy calls do": search_finds,
    "one severity: the search compares the raises": raises_told,
}
