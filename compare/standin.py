#!/usr/bin/env python3
"""The model in the register's place, with the driver's input and output, and with the fault that the variable FAULT names.

`standin.py run` reads a list from the standard input. compare/test_differential.py tries with it whether faults are noticed.
"""
import contextlib
import os
import struct
import sys

import imports  # noqa: F401  (finds the reading of calls)
import wrong_characters
import wrong_ends
import wrong_lifts
import wrong_panel
import wrong_raises
from differential import modelled
from headline import ACKNOWLEDGED, SUMMARY, SUPPRESSED, without, worst
from orders import Counters, Given, Open, Panel, Step
from original import active_shown

FAULT = os.environ.get("FAULT", "")


def read(data):
    """The orders of a list."""
    at = 0

    def take(form):
        nonlocal at
        found = struct.unpack_from(form, data, at)
        at += struct.calcsize(form)
        return found

    def part():
        nonlocal at
        (size,) = take(">I")
        at += size
        return data[at - size:at]

    while at < len(data):
        (letter,) = take("c")
        if letter == b"o":
            *limits, size, former = take(">IIIIB")
            yield Open(tuple(limits), size, former)
        elif letter == b"s":
            room, former = take(">IB")
            yield Step(part(), room, former)
        elif letter == b"r":
            yield Given(part())
        elif letter == b"p":
            writes, at_, value, is_left = take(">BIBB")
            block = part()
            yield Panel(None if is_left else block, at_ if writes else None, value)
        else:
            _, successes, failures = take(">IQQ")
            yield Counters(successes, failures)


# ---- faults: each changes what an order gave

def past_the_answer(order, number, length, answer, register):
    if number == 0 and length < len(answer):
        answer[length] ^= 1
    return number, length


def written_on_refusal(order, number, length, answer, register):
    if number == 31:
        answer[0] ^= 1
    return number, length


def a_register_byte(order, number, length, answer, register):
    if isinstance(order, Step) and order.call[:1] == b"\2" and number == 0 and answer[0] == 3:
        register[-1] ^= 1
    return number, length


def another_number(order, number, length, answer, register):
    return (24 if number == 26 else number), length


def another_length(order, number, length, answer, register):
    return number, length + (isinstance(order, Step) and number == 0 and order.call[0] == 11)


FAULTS = {fault.__name__: fault for fault in (past_the_answer, written_on_refusal, a_register_byte, another_number, another_length)}


# ---- wrong summaries (M-103)

def is_summary(order, number):
    return isinstance(order, Step) and order.call == bytes([SUMMARY]) and number == 0


def active(register, *left_aside):
    """The active alarms but those in these states."""
    return without(active_shown(register), *left_aside)


def summary_of(*left_aside):
    """Summaries of which the number, the worst severity and the worst readiness leave aside alarms in these states."""
    def fault(order, number, length, answer, register):
        if is_summary(order, number):
            counted, severe, unready = (active(register, *states) for states in left_aside)
            answer[8:16] = len(counted).to_bytes(8, "big")
            answer[16:18] = worst(severe)[0], worst(unready)[1]
        return number, length
    return fault


def counter_off(at):
    """A byte of a counter, in summaries that leave a suppressed alarm aside."""
    def fault(order, number, length, answer, register):
        if is_summary(order, number) and active(register) != active(register, SUPPRESSED):
            answer[at] ^= 1
        return number, length
    return fault


AMENDED = summary_of((), (SUPPRESSED,), (SUPPRESSED,))  # as M-103 has it
SUMMARIES = {
    "suppressed alarms counted again": summary_of((), (), ()),
    "acknowledged alarms left aside": summary_of((), (ACKNOWLEDGED, SUPPRESSED), (ACKNOWLEDGED, SUPPRESSED)),
    "only the severity amended": summary_of((), (SUPPRESSED,), ()),
    "only the readiness amended": summary_of((), (), (SUPPRESSED,)),
    "the active length without the suppressed": summary_of((SUPPRESSED,), (SUPPRESSED,), (SUPPRESSED,)),
    "successes one off": counter_off(25),
    "failures one off": counter_off(33),
}


# ---- wrong counts of raises (M-100), wrong measures of texts (M-104), wrong suppressions and lifts (M-105), wrong panel blocks (M-102): with these
# the model itself is another

MODELS = wrong_raises.WRONG | wrong_raises.WRONG_ON_GIVEN | wrong_characters.WRONG | wrong_characters.WRONG_ON_GIVEN
MODELS |= wrong_ends.WRONG | wrong_lifts.WRONG | wrong_lifts.WRONG_ON_GIVEN | wrong_panel.WRONG


# ---- what the driver writes

def write(out, orders):
    before, fault = b"", (FAULTS | SUMMARIES).get(FAULT)
    for order, (number, length, answer, register, _) in zip(orders, modelled(orders)):
        if isinstance(order, Open):
            before = bytes([order.former]) * order.size
        elif isinstance(order, Given):
            before = order.register
        after = bytearray(register)
        if fault:
            number, length = fault(order, number, length, answer, after)
        shown = answer.rstrip(bytes([order.former])) if isinstance(order, Step) else answer
        changes = [(at, after[at:at + 512]) for at in range(0, len(after), 512) if before[at:at + 512] != after[at:at + 512]]
        out.write(struct.pack(">IQI", number, length, len(shown)) + shown + struct.pack(">I", len(changes)))
        for at, part in changes:
            out.write(struct.pack(">II", at, len(part)) + part)
        before = bytes(after)


def main():
    if FAULT and FAULT not in FAULTS | SUMMARIES | MODELS:
        raise SystemExit(f"no fault is named {FAULT}")
    with MODELS.get(FAULT, contextlib.nullcontext)():
        write(sys.stdout.buffer, list(read(sys.stdin.buffer.read())))


if __name__ == "__main__":
    main()
