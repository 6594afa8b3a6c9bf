"""Whether a summary's headline is document 02's (M-103), and whether wrong summaries are noticed beside the Rust.
compare/test_differential.py runs these checks, and tries the same wrong summaries in the register's place."""
import collections
import json
import shutil
from unittest import mock

import always
import differential
import headline
import test_reach
from differential import Case, Difference, Rust, Tools, checked, modelled
from headline import ACKNOWLEDGED, SUPPRESSED, tallied
from standin import AMENDED, SUMMARIES
from test_balance import FRESH, SUMMARY, step
from test_reach import raised

RAISED, UPDATED = 0, 1
READINESS = {5: 2, 4: 1}


def alarm(severity, state):
    """What a headline looks at of an alarm as the oracle prints it."""
    return {"severity": severity, "state": state, "readiness": READINESS.get(severity, 0)}


# ---- the headline

# severities and states of active alarms, with the headline
HEADLINES = [
    ([], (255, 0)),
    ([(5, RAISED)], (5, 2)),
    ([(4, UPDATED)], (4, 1)),
    ([(0, RAISED)], (0, 0)),
    ([(5, ACKNOWLEDGED)], (5, 2)),
    ([(5, SUPPRESSED)], (255, 0)),
    ([(5, SUPPRESSED), (4, SUPPRESSED)], (255, 0)),
    ([(5, SUPPRESSED), (0, RAISED)], (0, 0)),
    ([(3, RAISED), (5, SUPPRESSED)], (3, 0)),
    ([(4, ACKNOWLEDGED), (5, SUPPRESSED), (3, UPDATED)], (4, 1)),
    ([(3, SUPPRESSED), (5, ACKNOWLEDGED)], (5, 2)),
]


def headlines(_root):
    for alarms, wanted in HEADLINES:
        found = headline.headline([alarm(*each) for each in alarms])
        if found != wanted:
            yield f"{alarms}: {found}, not {wanted}"


# ---- what is met

RAISE, ACKNOWLEDGE, SUPPRESS = raised(b"a", 5), step(3), step(4)
# calls on a fresh register, with the kinds of their last summary
KINDS = [
    ([], ["no alarm active"]),
    ([RAISE], ["no active alarm suppressed"]),
    ([RAISE, ACKNOWLEDGE], ["no active alarm suppressed", "another headline without acknowledged alarms"]),
    ([RAISE, SUPPRESS], ["suppressed alarms left aside", "all active alarms suppressed", "another headline by all active alarms",
                         "another readiness by all active alarms"]),
    ([RAISE, SUPPRESS, raised(b"b", 5)], ["suppressed alarms left aside"]),
    ([raised(b"a", 3), SUPPRESS, raised(b"b", 2)], ["suppressed alarms left aside", "another headline by all active alarms"]),
    ([raised(b"a", 3), SUPPRESS, raised(b"b", 5), step(3, id=b"b")],
     ["suppressed alarms left aside", "another headline without acknowledged alarms"]),
    ([RAISE, ACKNOWLEDGE, raised(b"b", 5)], ["no active alarm suppressed"]),
    ([RAISE, SUPPRESS, ACKNOWLEDGE], ["no active alarm suppressed", "another headline without acknowledged alarms"]),
]


def met(lists):
    """What a tally has of summaries, with lines of the oracle that are by the model."""
    tally = collections.Counter()
    with mock.patch.object(differential, "ran", test_reach.spoken):
        try:
            for orders in lists:
                checked(Case(orders), Tools(oracle="oracle"), tally)
        except Difference as found:
            raise ValueError(found) from None
    return collections.Counter({name: n for name, n in tally.items() if name.startswith("summaries")})


def kinds(_root):
    """The kinds of a summary, and a summary that is refused has none."""
    for calls, wanted in KINDS:
        found = met([[FRESH, *calls, SUMMARY, step(11, 1551)]])
        if found != {tallied(kind, by): 1 for kind in wanted for by in ("", headline.WITH_RUST)}:
            yield f"{[order.call.hex() for order in calls]}: {dict(found)}, not {wanted}"


def unmet(_root):
    """A run must meet every kind: the lists of headlines do, on both sides, and by the model alone."""
    if headline.unmet(met(always.headlines()), True):
        yield f"not met: {headline.unmet(met(always.headlines()), True)}"
    alone = collections.Counter({tallied(kind): 1 for kind in headline.KINDS})
    for by_rust, wanted in ((False, []), (True, [f"no {tallied(kind, headline.WITH_RUST)}" for kind in headline.KINDS])):
        if headline.unmet(alone, by_rust) != wanted:
            yield f"by the model alone: {headline.unmet(alone, by_rust)}"
    for kind in headline.KINDS:
        if headline.unmet(alone - collections.Counter([tallied(kind)]), False) != [f"no {tallied(kind)}"]:
            yield f"{kind} is not missed"


# ---- wrong summaries beside the Rust

def some_list():
    """Summaries of an alarm that is raised, acknowledged and suppressed, and of two."""
    return [FRESH, RAISE, SUMMARY, ACKNOWLEDGE, SUMMARY, SUPPRESS, SUMMARY, raised(b"b", 3), SUMMARY]


def made_up(orders, fault):
    """The model's outcomes with wrong summaries."""
    for order, outcome in zip(orders, modelled(orders)):
        fault(order, outcome.number, outcome.length, outcome.answer, outcome.register)
        yield outcome


def spoken():
    """The oracle's lines of the list, by the model."""
    return test_reach.spoken(None, some_list()).decode().splitlines()


def rust_fault(fault, lines):
    """Place and text of what is found first of wrong summaries beside these lines of the oracle; None where nothing is."""
    orders = some_list()
    rust = Rust(shutil.which("true"), orders, collections.Counter())
    rust.lines = iter(lines)
    found = map(rust.difference, orders, made_up(orders, fault))
    return next(((place, text) for place, text in enumerate(found) if text), None)


NO_COUNTERS = "00" * 16
HEAD = "{'code': 11, 'count': 0, 'number': %d}"
FOUND = {
    "suppressed alarms counted again": (6, f"summary 0502{NO_COUNTERS}, by the Rust ff00{NO_COUNTERS}"),
    "acknowledged alarms left aside": (4, f"summary ff00{NO_COUNTERS}, by the Rust 0502{NO_COUNTERS}"),
    "only the severity amended": (6, f"summary ff02{NO_COUNTERS}, by the Rust ff00{NO_COUNTERS}"),
    "only the readiness amended": (6, f"summary 0500{NO_COUNTERS}, by the Rust ff00{NO_COUNTERS}"),
    "the active length without the suppressed": (6, f"answer {HEAD % 0}, by the Rust {HEAD % 1}"),
    "successes one off": (6, f"summary ff00{'00' * 7}01{'00' * 8}, by the Rust ff00{NO_COUNTERS}"),
    "failures one off": (6, f"summary ff00{'00' * 15}01, by the Rust ff00{NO_COUNTERS}"),
}


def faultless(_root):
    if rust_fault(AMENDED, spoken()):
        yield f"{rust_fault(AMENDED, spoken())}"


def noticed(name):
    def check(_root):
        found = rust_fault(SUMMARIES[name], spoken())
        if found != FOUND[name]:
            yield f"{found}, not {FOUND[name]}"
    return check


def own_states(_root):
    """Alarms are left aside by the Rust's own state of each, not by the register's."""
    for place, state, wanted in [
        (4, SUPPRESSED, f"summary 0502{NO_COUNTERS}, by the Rust ff00{NO_COUNTERS}"),
        (6, ACKNOWLEDGED, f"summary ff00{NO_COUNTERS}, by the Rust 0502{NO_COUNTERS}"),
    ]:
        lines = spoken()
        said = json.loads(lines[place])
        said["state"]["active"][0]["state"] = state
        lines[place] = json.dumps(said)
        found = rust_fault(AMENDED, lines)
        if found != (place, wanted):
            yield f"state {state}: {found}, not {(place, wanted)}"


CHECKS = {
    "headline: severities and states": headlines,
    "headline: kinds of summaries": kinds,
    "headline: what a run must meet": unmet,
    "headline: no fault": faultless,
    **{f"headline: a wrong summary is noticed beside the Rust: {name}": noticed(name) for name in SUMMARIES},
    "headline: the Rust's own states": own_states,
}
