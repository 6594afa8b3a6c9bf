"""Kinds of lifts, which are calls of operation 14 (M-105 of document 02), and of registers that an end makes unsound."""
import itertools
from typing import NamedTuple

from headline import SUPPRESSED
from records import LAYOUT, WIDTH, alarm_of, put, time_at, unlinked
from soundness import Unsound, sound_chains, walked
from timed import EARLIEST, LATEST, LIFT, UPDATED, Held, same

NO_END = bytes(9)  # the option byte and the time


# ---- lifts

class Lift(NamedTuple):
    """An answered lift: its cutoff and number; the alarms that were due, and those with a later end and without one; what the register held
    before and after it."""
    cutoff: int
    told: int
    lifted: list
    later: list
    untimed: list
    before: Held
    after: Held


def lift_of(call):
    """None where the call is no answered lift."""
    if call.op != LIFT or call.number:
        return None
    cutoff = time_at(call.data, 1)
    waiting = [alarm for alarm in call.before.active.values() if alarm["state"] == SUPPRESSED]
    timed = [alarm for alarm in waiting if alarm["end"] is not None]
    due, later = ([alarm for alarm in timed if (alarm["end"] <= cutoff) == is_due] for is_due in (True, False))
    return Lift(cutoff, call.told, due, later, [alarm for alarm in waiting if alarm["end"] is None], call.before, call.after)


def goes_back(lift):
    return any(alarm["updated_at"] > max(lift.cutoff, alarm["raised_at"]) for alarm in lift.lifted)


def other_order(lift):
    ends = [alarm["end"] for alarm in lift.lifted]
    return ends != sorted(ends)


def in_history(lift):
    """Entries with an end that has come: they stay as they are."""
    due = [entry for _, entry in lift.before.history if entry["end"] is not None and entry["end"] <= lift.cutoff]
    return any(entry in [alarm for _, alarm in lift.after.history] for entry in due)


LIFTS = {
    "none, no end": lambda lift: lift.told == 0 and not lift.later,
    "none, ends are later": lambda lift: lift.told == 0 and lift.later,
    "one": lambda lift: lift.told == 1,
    "several": lambda lift: lift.told > 1,
    "an alarm without an end left": lambda lift: lift.untimed,
    "some lifted, and one with a later end left": lambda lift: lift.lifted and lift.later,
    "an end at the cutoff": lambda lift: any(alarm["end"] == lift.cutoff for alarm in lift.lifted),
    "an end one before the cutoff": lambda lift: any(alarm["end"] == lift.cutoff - 1 for alarm in lift.lifted),
    "an end one after the cutoff": lambda lift: any(alarm["end"] == lift.cutoff + 1 for alarm in lift.later),
    "raised_at after the cutoff": lambda lift: any(alarm["raised_at"] > lift.cutoff for alarm in lift.lifted),
    "updated_at goes back": goes_back,
    "another order than that of the ends": other_order,
    "an end that has come left in history": in_history,
    "updated_at after its end": lambda lift: any(alarm["updated_at"] > alarm["end"] for alarm in lift.lifted),
}


# ---- what only given registers hold

def of_one_entry(lift):
    """Whether two alarms that are lifted one behind the other become one entry."""
    return any(same(one, other) for one, other in itertools.pairwise(lift.lifted))


def into_newest(lift):
    """Whether history's newest entry is like the first alarm that is lifted, as it becomes."""
    return bool(lift.lifted and lift.before.history) and same(lift.lifted[0] | {"state": UPDATED}, lift.before.history[-1][1])


LIFTS_ON_BYTES = {
    "the earliest end": lambda lift: any(alarm["end"] == EARLIEST for alarm in lift.lifted),
    "the latest end": lambda lift: any(alarm["end"] == LATEST for alarm in lift.lifted),
    "two alarms into one entry": of_one_entry,
    "an alarm into the newest entry": into_newest,
}
UNSOUND = {(chain, state): f"22 for an end in state {state} on the {name} chain"
           for chain, name, states in ((0, "active", (0, 1, 2)), (1, "history", (0, 1, 2, 4, 5))) for state in states}


def wrong_ends(register):
    """Chain and state of the alarms with an end that are not suppressed, where the register would be sound without these ends."""
    data = bytearray(register)
    try:
        chains = walked(bytes(data))
    except Unsound:
        return []
    found = []
    for chain, index in ((chain, index) for chain in (0, 1) for index in chains[chain]):
        alarm = alarm_of(unlinked(bytes(data), index))
        if alarm["end"] is not None and alarm["state"] != SUPPRESSED:
            found.append((chain, alarm["state"]))
            put(data, WIDTH * index + LAYOUT["alarm"]["end"]["present"], NO_END)
    return found if found and sound_chains(data) else []
