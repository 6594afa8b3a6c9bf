"""The register's bytes beside what the Rust says of the same calls, as the oracle prints it.

As document 01 has it ("Where the Rust's forms stop"): active lists and counts compare as sets; so does a run of history that
one call expired, and where the limit cut it, the run compares by count and membership.

The Rust has no summary, and its `readiness_impact()` does not ask whether an active alarm is suppressed. So a summary's worst severity and
readiness (M-103) are compared with the worst over all of the Rust's active alarms where none of them is suppressed; where some are, with the
worst over those that are not, by the Rust's own state of each: that these are left aside is then the comparison's reading, not the Rust's.
The number, which is the active length, and the two counters are the Rust's in every summary.

The Rust does not count raises (M-100): alarms are compared without them. compare/raises.py sets them beside the Rust's answers. It knows no
suppression until a time (M-105): it is not given lists with operations 13 and 14, and without them no alarm has an end.
"""
import functools
import itertools

from headline import SUMMARY, headline
from records import alarm_of, event_of, number, unlinked
from soundness import Unsound, walked

EXPIRED = 5


def text(value):
    """A field as the oracle prints it."""
    if isinstance(value, tuple):
        return [text(part) for part in value]
    return value.decode() if isinstance(value, bytes) else value


@functools.lru_cache(maxsize=8192)
def alarm_shown(record):
    alarm = alarm_of(record)
    shown = {name: text(value) for name, value in alarm.items() if name not in ("key", "details", "raises", "end")}
    readiness = {5: 2, 4: 1}.get(alarm["severity"], 0) if alarm["state"] < 4 else 0
    details = None if alarm["details"] is None else alarm["details"].hex()
    return shown | {"key": alarm["key"].hex(), "details": details, "correlation_id": None, "readiness": readiness}


@functools.lru_cache(maxsize=8192)
def event_shown(record):
    return {name: text(value) for name, value in event_of(record).items()}


def records(data):
    return [bytes(data[at:at + 1536]) for at in range(0, len(data), 1536)]


def string(data, at=0):
    length = int.from_bytes(data[at:at + 4], "big")
    return bytes(data[at + 4:at + 4 + length]).decode()


def pairs(body):
    """The entries of op 10."""
    at = 0
    while at < len(body):
        cause = string(body, at + 5)
        yield [body[at], int.from_bytes(body[at + 1:at + 5], "big"), cause]
        at += 9 + len(cause.encode())


def answer_shown(op, answer):
    """An answer's bytes as the oracle prints them."""
    body, code = answer[16:], answer[0]
    shown = {"code": code, "count": int.from_bytes(answer[4:8], "big"), "number": int.from_bytes(answer[8:16], "big")}
    if code in (1, 2, 6, 7):
        return shown | {"alarm": alarm_shown(bytes(body))}
    if code in (3, 10):
        return shown | {"id": string(body)}
    if code in (4, 5):
        return shown | {"key": bytes(body[:32]).decode()} | ({"cause": string(body, 32)} if code == 4 else {})
    if code in (8, 9):
        return shown | {"message": string(body)}
    if op in (8, 9):
        return shown | {"alarms": [alarm_shown(record) for record in records(body)]}
    if op == 10:
        return shown | {"counts": list(pairs(body))}
    if op == 12:
        return shown | {"events": [event_shown(record) for record in records(body)]}
    return shown


def alarms_shown(data, indices):
    return [alarm_shown(unlinked(data, index)) for index in indices]


def active_shown(register):
    """The active alarms of a register, as the oracle prints them."""
    data = bytes(register)
    return alarms_shown(data, walked(data)[0])


def summary_body(state):
    """Op 11's body by what the Rust holds."""
    return bytes(headline(state["active"])) + b"".join(state[name].to_bytes(8, "big") for name in ("successes", "failures"))


def by_key(alarms):
    return sorted(alarms, key=lambda alarm: (alarm["key"], alarm["id"], alarm["updated_at"]))


def runs(history):
    """History in groups: what one call expired is a group of its own, in the order of keys."""
    def mark(item):
        place, alarm = item
        return (EXPIRED, alarm["cleared_at"]) if alarm["state"] == EXPIRED else (0, place)
    return [by_key(alarm for _, alarm in group) for _, group in itertools.groupby(enumerate(history), mark)]


class Original:
    """The Rust on one list of calls."""

    def __init__(self):
        self.active, self.expired, self.is_cut = [], [], False
        self.seen, self.shown = None, None

    def state_shown(self, register):
        """The register as the oracle prints what the Rust holds."""
        if register != self.seen:
            data = bytes(register)
            active, history, audit, _ = walked(data)
            self.seen, self.shown = data, {
                "active": alarms_shown(data, active),
                "history": alarms_shown(data, history),
                "audit": [event_shown(unlinked(data, index)) for index in audit],
                "successes": number(data, "successes"),
                "failures": number(data, "failures"),
            }
        return self.shown

    def difference(self, call, refusal, answer, register, theirs):
        """What differs after a call that the Rust answers, as text; None where nothing does."""
        state = theirs.pop("state")
        cut = self.is_cut = self.cut(call, state)
        if refusal:
            return None if refusal == 30 and self.room_is_chance(call) else f"the Rust answers {theirs}; here: number {refusal}"
        try:
            ours, held = answer_shown(call[0], answer), self.state_shown(register)
        except Unsound:
            return "the register is not sound"
        if call[0] == SUMMARY and answer[16:] != summary_body(state):
            return f"summary {answer[16:].hex()}, by the Rust {summary_body(state).hex()}"
        if call[0] == 9 and "alarms" in theirs:
            fault = self.histories_differ(ours.pop("alarms"), theirs.pop("alarms"), cut, False)
            if fault:
                return f"history list: {fault}"
            if cut:
                ours.pop("count"), theirs.pop("count")
        for name, order in (("alarms", by_key), ("counts", sorted)):
            if name in ours and name in theirs:
                ours[name], theirs[name] = order(ours[name]), order(theirs[name])
        if ours != theirs:
            return f"answer {ours}, by the Rust {theirs}"
        return self.states_differ(held, state, cut)

    def states_differ(self, ours, theirs, cut):
        for name in ("audit", "successes", "failures"):
            if ours[name] != theirs[name]:
                return f"{name} {ours[name]}, by the Rust {theirs[name]}"
        if by_key(ours["active"]) != by_key(theirs["active"]):
            return f"active {ours['active']}, by the Rust {theirs['active']}"
        fault = self.histories_differ(ours["history"], theirs["history"], cut, True)
        return f"history: {fault}" if fault else None

    def cut(self, call, state):
        """Whether the limit has cut the oldest run that history holds: then who is left of it is chance in the Rust."""
        keys = {alarm["key"] for alarm in state["active"]}
        if call[0] == 7:
            cutoff = int.from_bytes(call[1:], "big", signed=True)
            ended = {"state": EXPIRED, "updated_at": cutoff, "cleared_at": cutoff, "readiness": 0}
            gone = [alarm | ended for alarm in self.active if alarm["key"] not in keys]
            self.expired += [gone] if gone else []
        self.active = state["active"]
        held = [group for group in runs(state["history"]) if group[0]["state"] == EXPIRED]
        del self.expired[:len(self.expired) - len(held)]
        return bool(held) and len(held[0]) < len(self.expired[0])

    def room_is_chance(self, call):
        """Whether a list of history may have room on one side alone: of a run that is cut other alarms are left, and not as many match."""
        return call[0] == 9 and self.is_cut

    def histories_differ(self, ours, theirs, cut, whole):
        """`whole`: all of history, so that a run that is cut has one length on both sides."""
        if cut:
            if whole and len(ours) != len(theirs):
                return f"{len(ours)} entries, by the Rust {len(theirs)}"
            ours, theirs = ([alarm for alarm in side if alarm not in self.expired[0]] for side in (ours, theirs))
        ours, theirs = runs(ours), runs(theirs)
        return None if ours == theirs else f"{ours}, by the Rust {theirs}"
