#!/usr/bin/env python3
"""Recorded lists: crates/lists_replay/stdin holds lists of calls, and stdout what the Rust answers to them, in document 01's bytes; to lists with
operations 13 and 14 (M-105), which the Rust has not, it holds what the model answers.

compare/recorded.py                  checks the two files; the last line is 'N passed, M failed'
compare/recorded.py write [FOLDER]   writes them; FOLDER holds the six Rust files, as for compare/oracle/build.sh

A line of stdout is the number, the answer's length, and the SHA-256 of the answer's bytes. The Rust's answers fix all bytes of an answer
but the order of what a HashMap holds: that is document 01's, the order in which alarms were raised; but a summary's worst severity and
readiness where the Rust holds suppressed alarms: these leave them aside (M-103, see original.py); and but the raises of alarms, which are
by the number of its answers (M-100, see raises.py). Refusals are the oracle's, which does not give the Rust a raise that 33 refuses (M-104).
"""
import collections
import contextlib
import functools
import hashlib
import json
import random
import sys

import imports  # noqa: F401  (finds the list of checks)
import always
import always_timed
import characters
import ends
import generate
import headline
import model
import programs
import raises
from checklist import Skip, run
from differential import ANSWERS, Difference, Tools, counted, for_the_rust, modelled, ran, refusals
from orders import Open, Step, written
from original import EXPIRED, Original, summary_body
from records import ROOT, WIDTH, alarm_record, event_record
from standin import read

STDIN, STDOUT = (ROOT / "crates/lists_replay" / name for name in ("stdin", "stdout"))
LISTS, TIMED_LISTS, CALLS, SEED = 60, 20, 30, 1
HISTORY = 9  # the operation
# what the program has room for
MOST_RECORDS, MOST_ANSWER, MOST_CALL = 12, 13 * WIDTH, 4096


def row(number, answer):
    return f"{number} {len(answer)} {hashlib.sha256(answer).hexdigest()}\n"


# ---- the Rust's answers in document 01's bytes

def sent(value):
    """A printed value as the value of a field."""
    if isinstance(value, list):
        return tuple(map(sent, value))
    return value.encode() if isinstance(value, str) else value


def alarm_bytes(shown):
    alarm = {name: sent(value) for name, value in shown.items()}
    details = None if shown["details"] is None else bytes.fromhex(shown["details"])
    return alarm_record(alarm | {"key": bytes.fromhex(shown["key"]), "details": details, "end": None})


def event_bytes(shown):
    return event_record({name: sent(value) for name, value in shown.items()})


def entry_name(entry):
    return json.dumps(entry, sort_keys=True)


class Cut(Exception):
    """History's limit has cut a run that was expired together: which of its alarms the Rust has left is chance."""


class Recorder:
    """Follows the Rust on one list, to know the order in which alarms were raised and expired."""

    def __init__(self):
        self.raised, self.expired, self.original, self.raises = [], {}, Original(), raises.Answers()

    def counted(self, op, said):
        """What the Rust says, with the raises of each alarm that its answer or its history holds."""
        self.raises.follow(op, said)
        history = self.raises.history_counted()
        said["state"]["history"] = history
        if "alarm" in said:
            said["alarm"], = self.raises.active_counted([said["alarm"]])
        if "alarms" in said:
            listed = [entry for entry, bare in zip(history, self.raises.entries) if bare in said["alarms"]]
            said["alarms"] = listed if op == HISTORY else self.raises.active_counted(said["alarms"])
        return said

    def follow(self, state):
        """Notes which alarms are active after a call, and which of those before it have expired."""
        keys = [alarm["key"] for alarm in state["active"]]
        gone = [key for key in self.raised if key not in keys]
        latest = max((place for place, _ in self.expired.values()), default=0) + 1
        for entry in state["history"]:
            if entry["state"] == EXPIRED and entry["key"] in gone:
                self.expired.setdefault(entry_name(entry), (latest, gone.index(entry["key"])))
        self.raised = [key for key in self.raised if key in keys] + [key for key in keys if key not in self.raised]

    def in_order(self, run_):
        return sorted(run_, key=lambda entry: self.expired[entry_name(entry)])

    def history(self, entries):
        """Entries, of which runs that one call expired come to stand in the order in which their alarms were raised."""
        found, run_ = [], []
        for entry in entries:
            if run_ and (entry["state"] != EXPIRED or entry["cleared_at"] != run_[0]["cleared_at"]):
                found, run_ = found + self.in_order(run_), []
            (run_ if entry["state"] == EXPIRED else found).append(entry)
        return found + self.in_order(run_)

    def active(self, alarms):
        return sorted(alarms, key=lambda alarm: self.raised.index(alarm["key"]))

    def counts(self, entries, state):
        """Severity, number and cause, in the order in which the pairs first appear among the active alarms."""
        pairs = [(alarm["severity"], alarm["cause"]) for alarm in self.active(state["active"])]
        entries = sorted(entries, key=lambda entry: pairs.index((entry[0], entry[2])))
        return b"".join(bytes([severity]) + model.u32(n) + model.string(cause.encode()) for severity, n, cause in entries)

    def body(self, op, said, state):
        if "alarm" in said:
            return alarm_bytes(said["alarm"])
        if "alarms" in said:
            return b"".join(map(alarm_bytes, (self.history if op == HISTORY else self.active)(said["alarms"])))
        if "events" in said:
            return b"".join(map(event_bytes, said["events"]))
        if "counts" in said:
            return self.counts(said["counts"], state)
        if op == headline.SUMMARY:
            return summary_body(state)
        texts = [said[name].encode() for name in ("id", "cause", "message") if name in said]
        return said.get("key", "").encode() + b"".join(map(model.string, texts))

    def line(self, order, printed):
        if printed == "opened":
            return row(0, b"")
        if printed.startswith("refused "):
            return row(int(printed.split()[1]), b"")
        said = self.counted(order.call[0], json.loads(printed))
        state = said.pop("state")
        if self.original.cut(order.call, state):
            raise Cut
        self.follow(state)
        return row(0, model.answer_of(said["code"], self.body(order.call[0], said, state), said["count"], said["number"]))


# ---- lists

def small_enough(orders):
    records = sum(orders[0].limits)
    return records <= MOST_RECORDS and all(len(order.call) <= MOST_CALL for order in orders[1:])


def some_list(rng, timed=False):
    """A list by chance that the program has room for, with reports at its end."""
    while True:
        orders = generate.fresh(rng, CALLS, timed)
        if all(isinstance(order, (Open, Step)) for order in orders) and small_enough(orders):
            orders += [Step(generate.call(op), MOST_ANSWER) for op in (8, 9, 10, 11)]
            return orders[:1] + [order._replace(room=min(order.room, MOST_ANSWER)) for order in orders[1:]]


def lines_of(oracle, orders):
    """The line of each order by the Rust."""
    if not for_the_rust(orders):
        raise ValueError("the Rust cannot follow this list")
    recorder, printed = Recorder(), ran(oracle, orders).decode().splitlines()
    return [recorder.line(order, line) for order, line in zip(orders, printed, strict=True)]


def timed_lists():
    """Lists with operations 13 and 14: by chance, and those of every run."""
    rng = random.Random(SEED)
    return [*(some_list(rng, True) for _ in range(TIMED_LISTS)), *filter(small_enough, always_timed.ends_bare())]


def by_the_model(orders):
    """The line of each order by the model."""
    return [row(outcome.number, bytes(outcome.answer[:outcome.length])) for outcome in modelled(orders)]


def recorded(oracle):
    """Lists by chance, and those of texts around their limits, with the line of each order by the Rust; then lists with operations 13 and 14."""
    rng, found = random.Random(SEED), []
    while len(found) < LISTS:
        orders = some_list(rng)
        with contextlib.suppress(Cut):
            found.append((orders, lines_of(oracle, orders)))
    found += [(orders, lines_of(oracle, orders)) for orders in always.texts()]
    found += [(orders, by_the_model(orders)) for orders in timed_lists()]
    return written([order for orders, _ in found for order in orders]), "".join(line for _, lines in found for line in lines)


# ---- checks

def by_model(_root):
    orders, lines = list(read(STDIN.read_bytes())), STDOUT.read_text().splitlines(True)
    for place, (found, line) in enumerate(zip(by_the_model(orders), lines, strict=True)):
        if found != line:
            yield f"order {place}: {found.strip()}, recorded: {line.strip()}"


@functools.cache
def tally():
    """What the lists meet, by the model."""
    found = collections.Counter()
    try:
        collections.deque(counted(list(read(STDIN.read_bytes())), Tools(), found), maxlen=0)
    except Difference as fault:
        raise ValueError(fault) from None
    return found


def every_result(_root):
    """The lists meet every code, and every refusal that a call can meet on a sound register."""
    met = tally()
    yield from (f"no order gives {name}" for name in refusals(23) + ANSWERS if not met[name])


def every_headline(_root):
    """The lists have summaries of every kind: with suppressed alarms left aside, and with acknowledged alarms on the headline."""
    yield from headline.unmet(tally(), False)


def every_raise(_root):
    """The lists count raises in every way that lists from a fresh register have."""
    yield from raises.unmet(tally(), False, False)


def every_text(_root):
    """The lists have texts at both limits and beyond, and calls in which 33 comes before other faults."""
    yield from characters.missing(tally(), characters.KINDS)


def every_end(_root):
    """The lists set, keep, remove and lift ends in every way that lists from a fresh register have."""
    yield from ends.unmet(tally(), False)


def by_rust(_root):
    try:
        oracle = programs.oracle()
    except programs.Missing as reason:
        raise Skip(reason)
    if recorded(oracle) != (STDIN.read_bytes(), STDOUT.read_text()):
        yield "the files are not those that `write` makes"


CHECKS = {
    "the model gives what is recorded": by_model,
    "every number and code is recorded": every_result,
    "summaries of every kind are recorded": every_headline,
    "raises of every kind are recorded": every_raise,
    "texts of every kind are recorded": every_text,
    "ends of every kind are recorded": every_end,
    "the Rust gives what is recorded": by_rust,
}


def main():
    if sys.argv[1:2] == ["write"]:
        orders, lines = recorded(programs.oracle(*sys.argv[2:3]))
        STDIN.write_bytes(orders)
        STDOUT.write_text(lines)
        return 0
    return run("recorded", CHECKS)


if __name__ == "__main__":
    sys.exit(main())
