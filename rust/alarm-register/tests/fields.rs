//! Every field on its way into the register and back, at its limits; and bytes of any kind.
use alarm_register::layout::longest;
use alarm_register::{
    check_call, Action, ActionAnswer, Alarm, AuditEvent, Call, Clear, Expire, Lift, Limits, ListActive, ListHistory, Object,
    Operation, PlainAction, PolicyAction, Raise, RaiseAnswer, Refusal, Register, Scope, Severity, Summarise, SuppressUntil,
    TakeAudit, Time, ANSWER_ROOM, CALL_ROOM, RECORD_WIDTH,
};

const LIMITS: Limits = Limits { active: 1, history: 1, audit: 1 };

fn objects<'a>(first: &'a str, second: &'a str) -> [Object<'a>; 9] {
    [
        Object::NfInstance { kind: first, instance: second },
        Object::Interface { nf: first, name: second },
        Object::Peer { nf: first, peer_id: second },
        Object::SessionStore { nf: first, shard: Some(second) },
        Object::SessionStore { nf: first, shard: None },
        Object::Slice { snssai: first },
        Object::Tenant { tenant: first },
        Object::Certificate { key_id: first },
        Object::DataPlaneQueue { nf: first, interface: second, queue: 513 },
    ]
}

/// Raises on a fresh register and compares what was stored with what was sent.
fn stored_as_sent(raise: &Raise<'_>) {
    let (mut bytes, mut answer) = ([0; 4 * RECORD_WIDTH], [0; ANSWER_ROOM]);
    let mut register = Register::open(&mut bytes, LIMITS).unwrap();
    let RaiseAnswer::Raised(alarm) = register.perform(raise, &mut answer).unwrap() else { panic!("not raised") };
    assert_eq!((alarm.raised_at, alarm.updated_at, alarm.cleared_at), (raise.time, raise.time, None));
    assert_eq!(
        (alarm.id, alarm.alarm_type, alarm.severity, alarm.cause),
        (raise.id, raise.alarm_type, raise.severity, raise.cause)
    );
    assert_eq!((alarm.object, alarm.tenant, alarm.slice, alarm.region), (raise.object, raise.tenant, raise.slice, raise.region));
    assert_eq!((alarm.text, alarm.details, alarm.raises, alarm.end), (raise.text, raise.details, 1, None));
    assert_eq!(Call::read(raise.call().as_bytes()), Some(Call::Raise(*raise)));
}

#[test]
fn alarms_are_stored_as_sent() {
    let long = "ö".repeat(64);
    // 120 code points in 256 bytes
    let text = "ö".repeat(112) + &"🚡".repeat(8);
    let details: Vec<u8> = (0..=255).cycle().take(longest::DETAILS).collect();
    let cause = format!("other:a.{}", "b".repeat(longest::CAUSE - 8));
    for object in objects("x", "").into_iter().chain(objects(&long[..64], &long[..64])) {
        let short = Raise::new(Time(i64::MIN), "", "", Severity::Cleared, "sbi-overload", object);
        stored_as_sent(&short);
        let full = Raise {
            time: Time(i64::MAX),
            severity: Severity::Critical,
            id: &long[..64],
            alarm_type: &long[..64],
            cause: &cause,
            ..short
        };
        stored_as_sent(&full.tenant(&long[..64]).slice("").region(&long).text(&text).details(&details));
    }
}

#[test]
fn the_longest_call_fills_the_room_for_calls() {
    let long = "x".repeat(256);
    let object = Object::DataPlaneQueue { nf: &long[..64], interface: &long[..64], queue: 0 };
    let raise = Raise::new(Time(0), &long[..64], &long[..64], Severity::Minor, &long[..96], object);
    let details = [0; longest::DETAILS];
    let raise = raise.tenant(&long[..64]).slice(&long[..64]).region(&long[..128]).text(&long).details(&details);
    assert_eq!(raise.call().as_bytes().len(), CALL_ROOM);
}

#[test]
fn events_are_stored_as_sent() {
    let long = "z".repeat(256);
    let (mut bytes, mut answer) = ([0; 4 * RECORD_WIDTH], [0; ANSWER_ROOM]);
    let mut register = Register::open(&mut bytes, LIMITS).unwrap();
    register
        .perform(&Raise::new(Time(5), "a", "t", Severity::Minor, "lease-lost", Object::Tenant { tenant: "a" }), &mut answer)
        .unwrap();
    for scope in [Scope::Alarm("a"), Scope::Tenant(&long[..64]), Scope::Global] {
        let action =
            PolicyAction::acknowledge(Time(9), "a", &long[..64]).tenant("").reason(&long).scope(scope).correlation(&long[..64]);
        let denied = action.denial(&long[..128]);
        assert_eq!(Call::read(denied.call().as_bytes()), Some(Call::Policy(denied)));
        assert_eq!(register.perform(&denied, &mut answer), Ok(ActionAnswer::Unauthorized { message: &long[..128] }));
        let event = register.perform(&TakeAudit { at_most: 1 }, &mut answer).unwrap().next().unwrap();
        assert_eq!((event.action, event.occurred_at, event.id, event.alarm_type), (Action::Acknowledge, Time(9), "a", "t"));
        assert_eq!((event.principal, event.tenant, event.reason), (&long[..64], Some(""), &long[..]));
        assert_eq!((event.scope, event.correlation, event.cause), (scope, Some(&long[..64]), "lease-lost"));
    }
}

#[test]
fn strings_above_their_limits_are_refused_with_26() {
    let long = "x".repeat(100_000);
    let tenant = Object::Tenant { tenant: "a" };
    let raise = Raise::new(Time(0), "a", "t", Severity::Minor, "lease-lost", tenant);
    let calls = [
        Raise { id: &long[..65], ..raise }.call(),
        Raise { alarm_type: &long, ..raise }.call(),
        Raise { cause: &long[..97], ..raise }.call(),
        Raise { object: Object::Slice { snssai: &long }, ..raise }.call(),
        raise.tenant(&long[..65]).call(),
        raise.region(&long[..129]).call(),
        raise.text(&long[..257]).call(),
        raise.details(&long.as_bytes()[..513]).call(),
        Clear::new(Time(0), "t", "lease-lost", tenant).slice(&long).call(),
        PlainAction::suppress(Time(0), &long).call(),
        PolicyAction::suppress(Time(0), "a", &long).call(),
        PolicyAction::suppress(Time(0), "a", "p").reason(&long).call(),
        PolicyAction::suppress(Time(0), "a", "p").scope(Scope::Tenant(&long)).call(),
        PolicyAction::suppress(Time(0), "a", "p").denial(&long).call(),
        SuppressUntil::new(Time(0), Time(0), "a", &long).call(),
        SuppressUntil::new(Time(0), Time(0), "a", "p").denial(&long).call(),
        ListHistory { tenant: Some(&long), slice: None }.call(),
    ];
    for call in calls {
        assert_eq!(check_call(call.as_bytes()), Err(Refusal::TooLong), "{call:?}");
    }
}

#[test]
fn refusals_of_opening_and_of_short_answers() {
    let mut bytes = [0; 4 * RECORD_WIDTH];
    assert_eq!(Register::open(&mut [], Limits { active: 0, ..LIMITS }).unwrap_err(), Refusal::Limits);
    assert_eq!(Register::open(&mut bytes[1..], LIMITS).unwrap_err(), Refusal::RegisterLength);
    assert_eq!(
        Register::open(&mut bytes, Limits { active: u32::MAX, history: u32::MAX, audit: u32::MAX }).unwrap_err(),
        Refusal::Limits
    );
    assert!(!Register::over(&mut []).is_sound());
    assert_eq!(Register::over(&mut bytes).perform(&Summarise, &mut [0; ANSWER_ROOM]), Err(Refusal::Unsound));
    let mut register = Register::open(&mut bytes, LIMITS).unwrap();
    assert_eq!(register.limits(), Some(LIMITS));
    assert!(register.is_sound());
    assert_eq!(register.perform(&Summarise, &mut [0; ANSWER_ROOM - 1]), Err(Refusal::AnswerLength));
    assert_eq!(register.perform(&Expire { before: Time(0) }, &mut []), Err(Refusal::AnswerLength));
    assert_eq!(register.perform(&Lift { up_to: Time(0) }, &mut [0; ANSWER_ROOM - 1]), Err(Refusal::AnswerLength));
    assert_eq!(register.step(&[], &mut []), Err(Refusal::Operation));
    assert_eq!(register.perform(&ListActive { severity: None }, &mut [0; 16]).map(|list| list.len()), Ok(0));
}

#[test]
fn refusals_have_numbers_of_their_own_and_32_is_none_of_them() {
    for refusal in Refusal::ALL {
        assert_eq!(Refusal::from_number(refusal.number()), refusal);
    }
    for number in [19, 32, u32::MAX] {
        assert_eq!(Refusal::from_number(number), Refusal::Unlisted(number));
    }
}

/// A source of numbers that are always the same.
fn numbers() -> impl FnMut() -> u64 {
    let mut state = 9u64;
    move || {
        state = state.wrapping_mul(6_364_136_223_846_793_005).wrapping_add(1_442_695_040_888_963_407);
        state >> 33
    }
}

#[test]
fn bytes_of_any_kind_are_read_or_not_and_never_more() {
    let mut number = numbers();
    let raise =
        Raise::new(Time(1), "a", "t", Severity::Minor, "lease-lost", Object::Tenant { tenant: "a" }).text("x").details(b"y");
    let whole = raise.call();
    for _ in 0..20_000 {
        let mut call = whole.as_bytes().to_vec();
        for _ in 0..number() % 3 {
            let place = number() as usize % call.len();
            call[place] = number() as u8;
        }
        call.truncate(call.len() + 1 - (number() % 2) as usize - (number() % 4 / 3) as usize);
        if let Some(read) = Call::read(&call) {
            assert_eq!(read.bytes().as_bytes(), call);
        } else {
            assert!(check_call(&call).is_err());
        }
        let junk: Vec<u8> = (0..RECORD_WIDTH).map(|_| if number() % 8 == 0 { number() as u8 } else { 0 }).collect();
        let _ = (Alarm::read(&junk), AuditEvent::read(&junk), Summarise::read_answer(&junk), ListActive::read_answer(&junk));
    }
}
