//! Suppressions until a time: how they end, and what keeps an end or removes it. A register has room for 2 active alarms, 9 entries of
//! history and 9 events.
use alarm_register::layout::alarm::{END, STATE};
use alarm_register::{
    Action, ActionAnswer, Alarm, Call, Clear, Expire, Lift, Limits, ListActive, ListHistory, Object, Operation, Outcome,
    PlainAction, PolicyAction, Raise, Refusal, Register, Scope, Severity, State, Summarise, SuppressUntil, TakeAudit, Time,
    ANSWER_ROOM, RECORD_WIDTH,
};

const LIMITS: Limits = Limits { active: 2, history: 9, audit: 9 };
const TENANT_A: Object<'_> = Object::Tenant { tenant: "a" };
const TENANT_B: Object<'_> = Object::Tenant { tenant: "b" };

/// A register of its own, and room for its answers.
struct Desk {
    register: Vec<u8>,
    answer: Vec<u8>,
}

impl Desk {
    /// With two alarms, raised at 10.
    fn with_two() -> Desk {
        let (mut register, answer) = (vec![0; LIMITS.register_length()], vec![0; LIMITS.answer_room()]);
        Register::open(&mut register, LIMITS).unwrap();
        let mut desk = Desk { register, answer };
        for (id, object) in [("a", TENANT_A), ("b", TENANT_B)] {
            desk.does(&raise(10, id, object));
        }
        desk
    }

    fn does<O: Operation>(&mut self, operation: &O) -> O::Answer<'_> {
        Register::over(&mut self.register).perform(operation, &mut self.answer).unwrap()
    }

    fn refuses(&mut self, operation: &impl Operation) -> Option<Refusal> {
        Register::over(&mut self.register).perform(operation, &mut self.answer).err()
    }

    /// State, last change and end of each active alarm.
    fn active(&mut self) -> Vec<(State, Time, Option<Time>)> {
        self.does(&ListActive { severity: None }).map(|alarm| (alarm.state, alarm.updated_at, alarm.end)).collect()
    }

    /// Id, state and end of the newest entries of history.
    fn newest(&mut self, count: usize) -> Vec<(String, State, Option<Time>)> {
        let entries: Vec<_> =
            self.does(&ListHistory::default()).map(|alarm| (alarm.id.to_string(), alarm.state, alarm.end)).collect();
        entries[entries.len() - count..].to_vec()
    }
}

fn raise(time: i64, id: &'static str, object: Object<'static>) -> Raise<'static> {
    Raise::new(Time(time), id, "t", Severity::Minor, "lease-lost", object)
}

fn until(time: i64, end: i64, id: &'static str) -> SuppressUntil<'static> {
    SuppressUntil::new(Time(time), Time(end), id, "crew").authorised(true)
}

#[test]
fn an_end_is_kept_until_a_lift_reaches_it() {
    let mut desk = Desk::with_two();
    let ActionAnswer::Suppressed(alarm) = desk.does(&until(20, 90, "a")) else { panic!("not suppressed") };
    assert_eq!((alarm.state, alarm.updated_at, alarm.end), (State::Suppressed, Time(20), Some(Time(90))));
    desk.does(&PlainAction::suppress(Time(21), "b").authorised(true));
    assert_eq!(desk.does(&Lift { up_to: Time(89) }), 0);
    assert_eq!(desk.active(), [(State::Suppressed, Time(20), Some(Time(90))), (State::Suppressed, Time(21), None)]);
    assert_eq!(desk.does(&Lift { up_to: Time(90) }), 1);
    assert_eq!(desk.active(), [(State::Updated, Time(90), None), (State::Suppressed, Time(21), None)]);
    assert_eq!(desk.does(&Lift { up_to: Time(i64::MAX) }), 0);
    let a = |state, end| ("a".to_string(), state, end);
    assert_eq!(
        desk.newest(3),
        [a(State::Suppressed, Some(Time(90))), ("b".to_string(), State::Suppressed, None), a(State::Updated, None)]
    );
}

#[test]
fn alarms_are_lifted_in_their_own_order_and_are_back_on_the_headline() {
    let mut desk = Desk::with_two();
    desk.does(&until(20, 91, "a"));
    desk.does(&until(20, 90, "b"));
    assert_eq!(desk.does(&Summarise).worst, None);
    assert_eq!(desk.does(&Lift { up_to: Time(95) }), 2);
    assert_eq!(desk.active(), [(State::Updated, Time(95), None); 2]);
    assert_eq!(desk.newest(2), [("a".to_string(), State::Updated, None), ("b".to_string(), State::Updated, None)]);
    assert_eq!(desk.does(&Summarise).worst, Some(Severity::Minor));
    let raises: Vec<u32> = desk.does(&ListActive { severity: None }).map(|alarm| alarm.raises).collect();
    assert_eq!(raises, [1, 1]);
}

#[test]
fn a_lift_is_as_of_its_cutoff_but_not_before_the_raising() {
    let mut desk = Desk::with_two();
    // the end may lie before the raising: it is later than the call's time
    desk.does(&until(1, 5, "a"));
    desk.does(&until(20, 30, "b"));
    desk.does(&raise(40, "c", TENANT_B));
    assert_eq!(desk.active(), [(State::Suppressed, Time(10), Some(Time(5))), (State::Suppressed, Time(40), Some(Time(30)))]);
    assert_eq!(desk.does(&Lift { up_to: Time(5) }), 1);
    assert_eq!(desk.does(&Lift { up_to: Time(30) }), 1);
    assert_eq!(desk.active(), [(State::Updated, Time(10), None), (State::Updated, Time(30), None)]);
}

#[test]
fn what_keeps_an_end_and_what_removes_it() {
    let suppressed = |end| Some((State::Suppressed, end));
    let kept = suppressed(Some(Time(90)));
    let policy = PolicyAction::suppress(Time(30), "a", "crew");
    let cases = [
        (Call::Raise(raise(99, "c", TENANT_A)), kept),
        (Call::Raise(Raise { severity: Severity::Critical, ..raise(30, "c", TENANT_A) }), kept),
        (Call::Plain(PlainAction::acknowledge(Time(30), "a")), kept),
        (Call::Policy(policy), kept),
        (Call::SuppressUntil(until(30, 40, "a").authorised(false)), kept),
        (Call::SuppressUntil(until(30, 40, "a")), suppressed(Some(Time(40)))),
        (Call::Plain(PlainAction::suppress(Time(30), "a").authorised(true)), suppressed(None)),
        (Call::Policy(policy.authorised(true)), suppressed(None)),
        (Call::Plain(PlainAction::acknowledge(Time(30), "a").authorised(true)), Some((State::Acknowledged, None))),
        (Call::Clear(Clear::new(Time(30), "t", "lease-lost", TENANT_A)), None),
        (Call::Expire(Expire { before: Time(30) }), None),
    ];
    for (call, left) in cases {
        let mut desk = Desk::with_two();
        desk.does(&until(20, 90, "a"));
        Register::over(&mut desk.register).step(call.bytes().as_bytes(), &mut desk.answer).unwrap();
        let found = desk.does(&ListActive { severity: None }).find(|alarm| alarm.id == "a");
        assert_eq!(found.map(|alarm| (alarm.state, alarm.end)), left, "{call:?}");
        if left.is_none() {
            let ended = |(id, state, end): &(String, State, Option<Time>)| id == "a" && *state >= State::Cleared && end.is_none();
            assert!(desk.newest(2).iter().any(ended), "{call:?}");
        }
        assert!(Register::over(&mut desk.register).is_sound(), "{call:?}");
    }
}

#[test]
fn an_end_that_is_not_later_than_the_calls_time_is_refused_last_of_all_faults() {
    let mut desk = Desk::with_two();
    let before = desk.register.clone();
    let (first, last) = (i64::MIN, i64::MAX);
    for (time, end, refusal) in [
        (20, 20, Some(Refusal::End)),
        (20, 19, Some(Refusal::End)),
        (20, -1, Some(Refusal::End)),
        (last, last, Some(Refusal::End)),
        (last, first, Some(Refusal::End)),
        (20, 21, None),
        (-1, 0, None),
        (first, last, None),
    ] {
        assert_eq!(until(time, end, "a").check().err(), refusal, "{time} {end}");
        assert_eq!(desk.refuses(&until(time, end, "nobody")), refusal, "{time} {end}");
        assert_eq!(desk.register, before);
    }
    let (wrong, long) = (until(20, 20, "a"), "x".repeat(129));
    let mut more = wrong.call().as_bytes().to_vec();
    assert_eq!(wrong.denial(&long).check(), Err(Refusal::TooLong));
    more.push(0);
    for (call, room, refusal) in [
        (&more[..], ANSWER_ROOM, Refusal::CallLength),
        (&more[..17], ANSWER_ROOM, Refusal::CallLength),
        (&more[..more.len() - 1], ANSWER_ROOM - 1, Refusal::End),
        (until(20, 21, "a").call().as_bytes(), ANSWER_ROOM - 1, Refusal::AnswerLength),
    ] {
        assert_eq!(Register::over(&mut desk.register).step(call, &mut desk.answer[..room]), Err(refusal));
    }
}

#[test]
fn policy_is_asked_as_without_an_end_and_leaves_the_same_event() {
    let mut desk = Desk::with_two();
    desk.does(&Raise { severity: Severity::Critical, ..raise(11, "c", TENANT_A) });
    let job = until(20, 90, "a").tenant("t").reason("job").scope(Scope::Global).correlation("j1");
    let message = "security-critical alarm suppression requires explicit policy override";
    assert_eq!(desk.does(&job), ActionAnswer::Unauthorized { message });
    assert_eq!(
        desk.does(&job.critical_allowed(true).authorised(false).denial("ask first")),
        ActionAnswer::Unauthorized { message: "ask first" }
    );
    assert_eq!(desk.does(&until(20, 90, "nobody")), ActionAnswer::NotFound { id: "nobody" });
    assert!(matches!(desk.does(&job.critical_allowed(true)), ActionAnswer::Suppressed(_)));
    let event = desk.does(&TakeAudit { at_most: 9 }).last().unwrap();
    assert_eq!((event.action, event.outcome, event.occurred_at), (Action::Suppress, Outcome::Authorised, Time(20)));
    assert_eq!((event.tenant, event.reason, event.scope, event.correlation), (Some("t"), "job", Scope::Global, Some("j1")));
}

#[test]
fn calls_are_read_as_they_were_written() {
    let job = until(-20, i64::MAX, "a").tenant("").reason("r").scope(Scope::Tenant("t")).correlation("c").denial("d");
    let lift = Lift { up_to: Time(i64::MIN) };
    for call in [Call::SuppressUntil(job), Call::SuppressUntil(job.critical_allowed(true).authorised(false)), Call::Lift(lift)] {
        assert_eq!(Call::read(call.bytes().as_bytes()), Some(call));
    }
    // the fields of operation 6, with the end behind the time
    let untimed = PolicyAction::suppress(job.time, job.id, job.principal).tenant("").reason("r").scope(job.scope);
    let untimed = untimed.correlation("c").denial("d").authorised(true).call();
    let (timed, untimed) = (job.call(), untimed.as_bytes());
    assert_eq!((timed.as_bytes()[0], untimed[0]), (13, 6));
    assert_eq!(&timed.as_bytes()[1..9], &untimed[1..9]);
    assert_eq!(&timed.as_bytes()[9..17], &i64::MAX.to_be_bytes());
    assert_eq!(&timed.as_bytes()[17..], &untimed[9..]);
    assert_eq!(lift.call().as_bytes(), [14, 128, 0, 0, 0, 0, 0, 0, 0]);
}

#[test]
fn an_end_is_told_beside_the_state() {
    let mut desk = Desk::with_two();
    desk.does(&until(20, 1_773_500_400_000_000_000, "a"));
    let said: Vec<String> = desk.does(&ListActive { severity: None }).map(|alarm| alarm.to_string()).collect();
    let since = "since 1970-01-01 00:00:00.00000001";
    assert_eq!(said[0], format!("minor suppressed until 2026-03-14 15:00:00 a t lease-lost tenant(a) {since}"));
    assert_eq!(said[1], format!("minor raised b t lease-lost tenant(b) {since}"));
}

#[test]
fn a_record_has_an_end_in_state_suppressed_alone() {
    let mut desk = Desk::with_two();
    desk.does(&until(20, 90, "a"));
    let whole = desk.register.clone();
    // record 1 is the active alarm, and the state of its end the only one that holds one
    for state in 0..=3 {
        let mut bytes = whole.clone();
        bytes[RECORD_WIDTH + STATE] = state;
        let sound = Register::over(&mut bytes).is_sound();
        assert_eq!(sound, state == State::Suppressed.byte(), "state {state}");
        assert_eq!(Alarm::read(&bytes[RECORD_WIDTH..]).is_some(), sound, "state {state}");
    }
    // absent, with its time still there; an option byte that is none; a time of any kind, before the raising too
    for (at, value, sound) in [(END, 0, false), (END, 2, false), (END + 1, 255, true), (END + 8, 0, true)] {
        let mut bytes = whole.clone();
        bytes[RECORD_WIDTH + at] = value;
        assert_eq!(Register::over(&mut bytes).is_sound(), sound, "{value} at {at}");
    }
}
