//! Every operation through the typed calls, on a register with room for 2 active alarms, 3 entries of history and 1 event.
use alarm_register::{
    layout, ActionAnswer, Clear, ClearAnswer, CountActive, Expire, Limits, ListActive, ListHistory, Object, Operation,
    PlainAction, PolicyAction, Raise, RaiseAnswer, Readiness, Refusal, Register, Scope, Severity, State, Summarise, TakeAudit,
    Time, RECORD_WIDTH,
};

const LIMITS: Limits = Limits { active: 2, history: 3, audit: 1 };
const TENANT_A: Object<'_> = Object::Tenant { tenant: "a" };
const TENANT_B: Object<'_> = Object::Tenant { tenant: "b" };

/// A register of its own, and room for its answers.
struct Desk {
    register: Vec<u8>,
    answer: Vec<u8>,
}

impl Desk {
    fn fresh() -> Desk {
        let mut register = vec![7; LIMITS.register_length()];
        Register::open(&mut register, LIMITS).unwrap();
        Desk { register, answer: vec![0; LIMITS.answer_room()] }
    }

    fn does<O: Operation>(&mut self, operation: &O) -> O::Answer<'_> {
        self.tries(operation).unwrap()
    }

    fn tries<O: Operation>(&mut self, operation: &O) -> Result<O::Answer<'_>, Refusal> {
        Register::over(&mut self.register).perform(operation, &mut self.answer)
    }

    fn history(&mut self) -> Vec<(State, Severity)> {
        self.does(&ListHistory::default()).map(|alarm| (alarm.state, alarm.severity)).collect()
    }

    fn history_raises(&mut self) -> Vec<u32> {
        self.does(&ListHistory::default()).map(|alarm| alarm.raises).collect()
    }

    fn active_raises(&mut self) -> Vec<u32> {
        self.does(&ListActive { severity: None }).map(|alarm| alarm.raises).collect()
    }
}

fn raise(time: i64, id: &'static str, object: Object<'static>) -> Raise<'static> {
    Raise::new(Time(time), id, "t", Severity::Minor, "lease-lost", object)
}

#[test]
fn one_alarm_raised_three_times_then_cleared_and_raised_anew() {
    let mut desk = Desk::fresh();
    assert!(matches!(desk.does(&raise(1, "a", TENANT_A)), RaiseAnswer::Raised(alarm) if alarm.id == "a"));
    for time in [2, 3] {
        assert!(
            matches!(desk.does(&raise(time, "b", TENANT_A)), RaiseAnswer::Updated(alarm) if alarm.id == "a" && alarm.updated_at == Time(time))
        );
    }
    assert_eq!(desk.history(), [(State::Raised, Severity::Minor), (State::Updated, Severity::Minor)]);
    let clear = Clear::new(Time(0), "t", "lease-lost", TENANT_A);
    assert_eq!(desk.does(&clear), ClearAnswer::Cleared { id: "a" });
    desk.does(&raise(9, "c", TENANT_A));
    assert_eq!(
        desk.history(),
        [(State::Updated, Severity::Minor), (State::Cleared, Severity::Cleared), (State::Raised, Severity::Minor)]
    );
    let cleared_at: Vec<_> = desk.does(&ListHistory::default()).map(|alarm| alarm.cleared_at).collect();
    assert_eq!(cleared_at, [None, Some(Time(1)), None]);
}

#[test]
fn raises_are_counted_until_an_alarm_ends_and_history_has_the_count_of_each_change() {
    let mut desk = Desk::fresh();
    desk.does(&raise(1, "a", TENANT_A));
    assert_eq!((desk.active_raises(), desk.history_raises()), (vec![1], vec![1]));
    for (time, history) in [(2, [1, 2]), (3, [1, 3])] {
        assert!(matches!(desk.does(&raise(time, "b", TENANT_A)), RaiseAnswer::Updated(alarm) if i64::from(alarm.raises) == time));
        assert_eq!(desk.history_raises(), history);
    }
    let acknowledged = desk.does(&PlainAction::acknowledge(Time(4), "a").authorised(true));
    assert!(matches!(acknowledged, ActionAnswer::Acknowledged(alarm) if alarm.raises == 3));
    desk.does(&raise(5, "c", TENANT_A));
    assert_eq!((desk.active_raises(), desk.history_raises()), (vec![4], vec![1, 3, 4]));
    let suppressed = desk.does(&PlainAction::suppress(Time(6), "a").authorised(true));
    assert!(matches!(suppressed, ActionAnswer::Suppressed(alarm) if alarm.raises == 4));
    desk.does(&raise(7, "d", TENANT_A));
    desk.does(&Clear::new(Time(8), "t", "lease-lost", TENANT_A));
    assert_eq!((desk.active_raises(), desk.history_raises()), (vec![], vec![4, 5, 5]));
    desk.does(&raise(9, "e", TENANT_A));
    desk.does(&raise(9, "f", TENANT_B));
    desk.does(&raise(9, "g", TENANT_B));
    assert_eq!(desk.active_raises(), [1, 2]);
    desk.does(&Expire { before: Time(10) });
    assert_eq!((desk.active_raises(), desk.history_raises()), (vec![], vec![2, 1, 2]));
}

#[test]
fn raises_of_a_record_from_before_start_at_0_and_the_largest_number_stays() {
    let mut desk = Desk::fresh();
    desk.does(&raise(1, "a", TENANT_A));
    let place = RECORD_WIDTH + layout::alarm::RAISES;
    for (stored, then) in [(0, 1), (255, 256), (65_535, 65_536), (u32::MAX - 1, u32::MAX), (u32::MAX, u32::MAX)] {
        desk.register[place..place + 4].copy_from_slice(&stored.to_be_bytes());
        assert_eq!(desk.active_raises(), [stored]);
        assert!(matches!(desk.does(&raise(2, "b", TENANT_A)), RaiseAnswer::Updated(alarm) if alarm.raises == then));
    }
}

#[test]
fn an_alarm_is_told_with_its_raises_where_there_are_more_than_one() {
    let mut desk = Desk::fresh();
    let said = |desk: &mut Desk| desk.does(&ListActive { severity: None }).map(|alarm| alarm.to_string()).collect::<Vec<_>>();
    let since = "lease-lost tenant(a) since 1970-01-01 00:00:00";
    desk.does(&raise(0, "a", TENANT_A).text("x"));
    assert_eq!(said(&mut desk), [format!("minor raised a t {since}: x")]);
    desk.does(&raise(0, "b", TENANT_A).text("y"));
    assert_eq!(said(&mut desk), [format!("minor updated a t {since}, raised 2 times: y")]);
    desk.does(&raise(0, "c", TENANT_A));
    assert_eq!(said(&mut desk), [format!("minor updated a t {since}, raised 3 times")]);
}

#[test]
fn a_third_key_exceeds_the_limit_and_an_active_id_is_refused() {
    let mut desk = Desk::fresh();
    desk.does(&raise(0, "a", TENANT_A));
    assert_eq!(desk.tries(&raise(0, "a", TENANT_B)), Err(Refusal::IdActive));
    desk.does(&raise(0, "b", TENANT_B));
    let third = desk.does(&raise(0, "c", Object::Tenant { tenant: "c" }));
    assert!(matches!(third, RaiseAnswer::ActiveLimitExceeded { limit: 2, .. }));
    assert!(matches!(desk.does(&raise(0, "d", TENANT_B)), RaiseAnswer::Updated(_)));
}

#[test]
fn a_clear_without_an_active_alarm_tells_the_key() {
    let mut desk = Desk::fresh();
    let clear = Clear::new(Time(0), "t", "lease-lost", TENANT_A);
    let ClearAnswer::WithoutActive { key, cause } = desk.does(&clear) else { panic!("cleared") };
    assert_eq!((key.to_string().as_str(), cause), ("a5f43ee9f466fcfff18a4c4b81602c03", "lease-lost"));
}

#[test]
fn actions_without_policy() {
    let mut desk = Desk::fresh();
    let denied = desk.does(&PlainAction::acknowledge(Time(0), "a"));
    assert_eq!(denied, ActionAnswer::Unauthorized { message: "acknowledge not authorized" });
    let unknown = PlainAction::suppress(Time(0), "a").authorised(true);
    assert_eq!(desk.does(&unknown), ActionAnswer::NotFound { id: "a" });
    desk.does(&raise(5, "a", TENANT_A));
    assert!(
        matches!(desk.does(&unknown), ActionAnswer::Suppressed(alarm) if alarm.state == State::Suppressed && alarm.updated_at == Time(5))
    );
    let acknowledged = desk.does(&PlainAction::acknowledge(Time(6), "a").authorised(true));
    assert!(matches!(acknowledged, ActionAnswer::Acknowledged(alarm) if alarm.state == State::Acknowledged));
}

#[test]
fn actions_with_policy_leave_events_until_the_audit_is_full() {
    let mut desk = Desk::fresh();
    desk.does(&Raise { severity: Severity::Critical, ..raise(0, "a", TENANT_A) });
    let suppress =
        PolicyAction::suppress(Time(3), "a", "leader").reason("job").tenant("t").scope(Scope::Global).correlation("j1");
    let message = "security-critical alarm suppression requires explicit policy override";
    assert_eq!(desk.does(&suppress.authorised(true)), ActionAnswer::Unauthorized { message });
    let full = desk.does(&suppress.authorised(true).critical_allowed(true));
    assert_eq!(full, ActionAnswer::AuditFailed { message: "audit log full" });
    let denied = desk.does(&PolicyAction::acknowledge(Time(4), "a", "apprentice").denial("ask first"));
    assert_eq!(denied, ActionAnswer::Unauthorized { message: "ask first" });
    let mut events = desk.does(&TakeAudit { at_most: 9 });
    assert_eq!(events.len(), 1);
    let event = events.next().unwrap();
    assert_eq!(event.to_string(), "1970-01-01 00:00:00.000000003 suppress a by leader: denied: job");
    assert_eq!((event.tenant, event.scope, event.correlation), (Some("t"), Scope::Global, Some("j1")));
    assert!(matches!(desk.does(&suppress.authorised(true).critical_allowed(true)), ActionAnswer::Suppressed(_)));
    let summary = desk.does(&Summarise);
    assert_eq!((summary.successes, summary.failures), (2, 2));
}

#[test]
fn suppressed_alarms_are_off_the_headline() {
    let mut desk = Desk::fresh();
    desk.does(&raise(0, "a", TENANT_A));
    desk.does(&Raise { severity: Severity::Critical, ..raise(0, "b", TENANT_B) });
    let headline = |desk: &mut Desk| desk.does(&Summarise).to_string();
    let said = |headline: &str| format!("2 active, {headline}; audit events: 0 stored, 0 lost");
    assert_eq!(headline(&mut desk), said("worst of those not suppressed: critical, not ready"));
    desk.does(&PlainAction::acknowledge(Time(1), "b").authorised(true));
    assert_eq!(headline(&mut desk), said("worst of those not suppressed: critical, not ready"));
    desk.does(&PlainAction::suppress(Time(2), "b").authorised(true));
    assert_eq!(headline(&mut desk), said("worst of those not suppressed: minor, no impact"));
    desk.does(&PlainAction::suppress(Time(3), "a").authorised(true));
    assert_eq!(headline(&mut desk), said("all suppressed, no impact"));
    desk.does(&Raise { severity: Severity::Critical, ..raise(4, "a", TENANT_A) });
    let summary = desk.does(&Summarise);
    assert_eq!((summary.active, summary.worst, summary.readiness), (2, None, Readiness::NoImpact));
    assert_eq!(desk.does(&CountActive).len(), 1);
}

#[test]
fn expiry_lists_counts_and_summary() {
    let mut desk = Desk::fresh();
    assert_eq!(desk.does(&Summarise).to_string(), "0 active, no impact; audit events: 0 stored, 0 lost");
    desk.does(&raise(100, "a", TENANT_A));
    desk.does(&Raise { severity: Severity::Major, ..raise(200, "b", TENANT_B) });
    let counts: Vec<String> = desk.does(&CountActive).map(|count| count.to_string()).collect();
    assert_eq!(counts, ["1 minor lease-lost", "1 major lease-lost"]);
    let summary = desk.does(&Summarise);
    assert_eq!((summary.active, summary.worst, summary.readiness), (2, Some(Severity::Major), Readiness::Degraded));
    let ids =
        |desk: &mut Desk, severity| desk.does(&ListActive { severity }).map(|alarm| alarm.id.to_string()).collect::<Vec<_>>();
    assert_eq!(ids(&mut desk, None), ["a", "b"]);
    assert_eq!(ids(&mut desk, Some(Severity::Major)), ["b"]);
    assert_eq!(desk.does(&Expire { before: Time(100) }), 0);
    assert_eq!(desk.does(&Expire { before: Time(101) }), 1);
    assert_eq!(ids(&mut desk, None), ["b"]);
    assert_eq!(desk.history().last(), Some(&(State::Expired, Severity::Minor)));
}

#[test]
fn history_is_chosen_by_tenant_and_slice() {
    let mut desk = Desk::fresh();
    desk.does(&raise(0, "a", TENANT_A).tenant("x").slice("s"));
    desk.does(&raise(0, "b", TENANT_B).tenant("y"));
    let count = |desk: &mut Desk, tenant, slice| desk.does(&ListHistory { tenant, slice }).len();
    assert_eq!(count(&mut desk, None, None), 2);
    assert_eq!(count(&mut desk, Some("x"), None), 1);
    assert_eq!(count(&mut desk, Some("y"), Some("s")), 0);
}
