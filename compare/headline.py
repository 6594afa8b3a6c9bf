"""The headline of a summary, its worst severity and worst readiness: M-103 of document 02, by active alarms as the oracle prints them.

Suppressed alarms are left aside, and no others; where none is left the two are 255 and 0. The model has a reading of its own.
"""
ACKNOWLEDGED, SUPPRESSED = 2, 3  # states
SUMMARY = 11  # the operation


def worst(alarms):
    """Worst severity and worst readiness of alarms."""
    return max((alarm["severity"] for alarm in alarms), default=255), max((alarm["readiness"] for alarm in alarms), default=0)


def without(alarms, *states):
    return [alarm for alarm in alarms if alarm["state"] not in states]


def headline(active):
    """Worst severity and worst readiness in the summary of these active alarms."""
    return worst(without(active, SUPPRESSED))


# ---- what is met: a summary that would be the same with its suppressed alarms shows nothing of the rule

# by the active alarms, and by those of them that are not suppressed
KINDS = {
    "no alarm active": lambda active, others: not active,
    "no active alarm suppressed": lambda active, others: active and others == active,
    "suppressed alarms left aside": lambda active, others: others != active,
    "all active alarms suppressed": lambda active, others: active and not others,
    "another headline by all active alarms": lambda active, others: worst(active) != worst(others),
    "another readiness by all active alarms": lambda active, others: worst(active)[1] != worst(others)[1],
    "another headline without acknowledged alarms": lambda active, others: worst(without(others, ACKNOWLEDGED)) != worst(others),
}
WITH_RUST = " compared with the Rust"


def tallied(kind, by=""):
    return f"summaries{by}: {kind}"


def count(tally, active, by=""):
    """Counts the kinds of the summary of these active alarms."""
    others = without(active, SUPPRESSED)
    tally.update(tallied(kind, by) for kind, is_of in KINDS.items() if is_of(active, others))


def unmet(tally, by_rust):
    """The kinds of summaries that a run must meet and did not."""
    sides = ["", WITH_RUST] if by_rust else [""]
    return [f"no {tallied(kind, by)}" for by in sides for kind in KINDS if not tally[tallied(kind, by)]]
