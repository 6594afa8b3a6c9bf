//! A raise's text, measured in code points and in bytes.
use alarm_register::layout::{alarm, header, longest};
use alarm_register::{
    ActionAnswer, Alarm, Clear, Limits, ListActive, ListHistory, Object, Operation, PlainAction, PolicyAction, Raise,
    RaiseAnswer, Refusal, Register, Severity, Time, ANSWER_ROOM, RECORD_WIDTH, TEXT_CODE_POINTS,
};

const LIMITS: Limits = Limits { active: 1, history: 8, audit: 1 };
const TENANT: Object<'_> = Object::Tenant { tenant: "a" };

fn raise() -> Raise<'static> {
    Raise::new(Time(0), "a", "t", Severity::Minor, "lease-lost", TENANT)
}

fn fresh() -> Vec<u8> {
    let mut bytes = vec![0; LIMITS.register_length()];
    Register::open(&mut bytes, LIMITS).unwrap();
    bytes
}

/// What a raise tells before it is sent, which must be what a fresh register says to it, with the alarm as it was sent.
fn told(raise: &Raise<'_>) -> Result<(), Refusal> {
    let (mut bytes, mut answer) = (fresh(), [0; ANSWER_ROOM]);
    let said = Register::over(&mut bytes).perform(raise, &mut answer).map(|answered| {
        assert!(matches!(answered, RaiseAnswer::Raised(alarm) if alarm.text == raise.text), "{answered:?}");
    });
    assert_eq!(raise.check(), said, "{raise:?}");
    said
}

#[test]
fn code_points_are_counted_and_not_bytes_units_or_letters() {
    let both = "é".repeat(112) + &"🚡".repeat(8);
    let one_more = "x".to_string() + &"é".repeat(108) + &"→".repeat(9) + &"🚡".repeat(3);
    assert_eq!((both.len(), one_more.len()), (longest::TEXT, longest::TEXT));
    assert_eq!((both.chars().count(), one_more.chars().count()), (TEXT_CODE_POINTS, TEXT_CODE_POINTS + 1));
    let (taken, too_many, too_long) = (Ok(()), Err(Refusal::CodePoints), Err(Refusal::TooLong));
    for (text, verdict) in [
        (String::new(), taken),
        ("x".repeat(120), taken),
        ("x".repeat(121), too_many),
        ("x".repeat(256), too_many),
        ("x".repeat(257), too_long),
        ("é".repeat(120), taken),
        ("é".repeat(121), too_many),
        ("é".repeat(129), too_long),
        ("→".repeat(85), taken),
        ("→".repeat(86), too_long),
        // 128 units of UTF-16
        ("🚡".repeat(64), taken),
        ("🚡".repeat(65), too_long),
        // a letter and its mark are two
        ("e\u{301}".repeat(60), taken),
        ("e\u{301}".repeat(61), too_many),
        // U+0000 counts, and ends nothing
        ("\0".repeat(120), taken),
        ("\0".repeat(121), too_many),
        (both, taken),
        (one_more, too_many),
    ] {
        assert_eq!(told(&raise().text(&text)), verdict, "{text:?}");
    }
}

#[test]
fn the_first_field_with_a_fault_is_told() {
    let (long, details) = ("x".repeat(300), [0; longest::DETAILS + 1]);
    let one_more = raise().text(&long[..121]);
    for (raise, refusal) in [
        (Raise { id: &long[..65], ..one_more }, Refusal::TooLong),
        (Raise { cause: "lease", ..one_more }, Refusal::Cause),
        (one_more.region(""), Refusal::Region),
        (one_more.text(&long[..257]), Refusal::TooLong),
        (one_more.details(&details), Refusal::CodePoints),
        (one_more.text(&long[..120]).details(&details), Refusal::TooLong),
    ] {
        assert_eq!(told(&raise), Err(refusal));
    }
}

#[test]
fn only_a_text_is_counted() {
    let long = "x".repeat(512);
    let (region, details) = (&long[..longest::REGION], long.as_bytes());
    assert_eq!(told(&raise().region(region).details(details)), Ok(()));
    assert_eq!(Clear::new(Time(0), "t", "lease-lost", TENANT).region(region).check(), Ok(()));
    let policy = PolicyAction::suppress(Time(0), "a", "p").reason(&long[..longest::REASON]).denial(&long[..longest::DENIAL]);
    assert_eq!(policy.check(), Ok(()));
}

#[test]
fn a_raise_with_too_many_is_refused_whatever_is_active() {
    let (mut bytes, mut answer) = (fresh(), [0; ANSWER_ROOM]);
    Register::over(&mut bytes).perform(&raise().text("short"), &mut answer).unwrap();
    let (before, long) = (bytes.clone(), "é".repeat(121));
    // one would update, one has an id that is active, one finds no room
    let other = Raise { object: Object::Tenant { tenant: "b" }, ..raise() };
    for raise in [raise(), other, Raise { id: "b", ..other }] {
        let mut register = Register::over(&mut bytes);
        assert_eq!(register.perform(&raise.text(&long), &mut answer), Err(Refusal::CodePoints));
        assert_eq!(register.as_bytes(), before);
    }
}

/// Puts a text into the first record of a chain, as it was stored before code points were counted.
fn store(bytes: &mut [u8], head: usize, text: &str) {
    let index = u32::from_be_bytes(bytes[head..head + 4].try_into().unwrap()) as usize;
    let at = index * RECORD_WIDTH + alarm::TEXT.at;
    bytes[at..at + 2].copy_from_slice(&(text.len() as u16).to_be_bytes());
    bytes[at + 2..at + 2 + text.len()].copy_from_slice(text.as_bytes());
}

/// The texts of a list.
fn texts<'a>(alarms: impl Iterator<Item = Alarm<'a>>) -> Vec<&'a str> {
    alarms.map(|alarm| alarm.text).collect()
}

#[test]
fn a_longer_text_that_is_stored_is_sound_and_is_kept_whole() {
    let [active, history, ..] = header::HEADS;
    for text in ["x".repeat(121), "é".repeat(128), "x".repeat(256)] {
        let (mut bytes, mut answer) = (fresh(), vec![0; LIMITS.answer_room()]);
        Register::over(&mut bytes).perform(&raise(), &mut answer).unwrap();
        store(&mut bytes, active, &text);
        store(&mut bytes, history, &text);
        let mut register = Register::over(&mut bytes);
        assert!(register.is_sound());
        assert_eq!(texts(register.perform(&ListActive { severity: None }, &mut answer).unwrap()), [&text]);
        let suppressed = register.perform(&PlainAction::suppress(Time(1), "a").authorised(true), &mut answer).unwrap();
        assert!(matches!(suppressed, ActionAnswer::Suppressed(alarm) if alarm.text == text), "{suppressed:?}");
        register.perform(&Clear::new(Time(2), "t", "lease-lost", TENANT), &mut answer).unwrap();
        assert_eq!(texts(register.perform(&ListHistory::default(), &mut answer).unwrap()), [&text; 3]);
    }
}

#[test]
fn a_raise_that_is_folded_into_a_longer_text_brings_its_own() {
    let [active, ..] = header::HEADS;
    let (mut bytes, mut answer) = (fresh(), [0; ANSWER_ROOM]);
    Register::over(&mut bytes).perform(&raise(), &mut answer).unwrap();
    store(&mut bytes, active, &"x".repeat(256));
    let updated = Register::over(&mut bytes).perform(&raise().text("short"), &mut answer).unwrap();
    assert!(matches!(updated, RaiseAnswer::Updated(alarm) if alarm.text == "short"), "{updated:?}");
}
