//! Panel blocks: which alarms light a lamp, what a write does, and what is refused. A register has room for 2 active alarms, 9 entries
//! of history and 9 events.
use alarm_register::layout::{alarm::TEXTS, panel};
use alarm_register::{
    panel_look, panel_write, Call, Clear, Expire, Lift, Limits, Object, Panel, PlainAction, PolicyAction, Raise, Refusal,
    Register, Severity, SuppressUntil, Time, PANEL_WIDTH, RECORD_WIDTH,
};

type Block = [u8; PANEL_WIDTH];

const LIMITS: Limits = Limits { active: 2, history: 9, audit: 9 };
/// Blocks whose masks let every severity through, and none.
const ALL: Block = [0, 0x3f, 0, 0, 0, 0, 0, 0];
const NONE: Block = [0; PANEL_WIDTH];
/// What a look makes of `ALL` where one minor alarm is raised.
const MINOR: Block = [8, 0x3f, 4, 1, 0, 0, 0, 1];

/// The bytes of a register behind these calls.
fn after(calls: &[Call<'_>]) -> Vec<u8> {
    let (mut bytes, mut answer) = (vec![0; LIMITS.register_length()], vec![0; LIMITS.answer_room()]);
    let mut register = Register::open(&mut bytes, LIMITS).unwrap();
    for call in calls {
        register.step(call.bytes().as_bytes(), &mut answer).unwrap();
    }
    bytes
}

/// A raise at 10, of an object with the alarm's id.
fn raise(id: &'static str, severity: Severity) -> Raise<'static> {
    Raise::new(Time(10), id, "t", severity, "lease-lost", Object::Tenant { tenant: id })
}

/// The minor alarm of most tests.
fn minor() -> Call<'static> {
    Call::Raise(raise("a", Severity::Minor))
}

fn looked(register: &[u8], mut block: Block) -> Block {
    panel_look(register, &mut block).unwrap();
    block
}

fn written(register: &[u8], mut block: Block, at: u32, value: u8) -> Block {
    panel_write(register, &mut block, at, value).unwrap();
    block
}

#[test]
fn each_severity_has_its_flag_and_its_number() {
    for severity in Severity::ALL.iter().copied() {
        let register = after(&[Call::Raise(raise("a", severity))]);
        let (bit, number) = (1 << severity.byte(), severity.byte() + 1);
        assert_eq!(looked(&register, ALL), [bit, 0x3f, number, 1, 0, 0, 0, 1], "{severity}");
        assert_eq!(looked(&register, NONE), [bit, 0, 0, 0, 0, 0, 0, 1], "{severity}");
        assert_eq!(written(&register, NONE, 1, !bit), [bit, !bit & 0x3f, 0, 0, 0, 0, 0, 1], "{severity}");
        let panel = Panel::from_bytes(looked(&register, ALL));
        assert_eq!((panel.waiting(), panel.is_lit(), panel.flags()), (Some(severity), true, Panel::bit(severity)));
        assert!(Severity::ALL.iter().all(|other| panel.is_waiting(*other) == (*other == severity) && panel.lets_through(*other)));
    }
}

#[test]
fn raised_and_updated_alarms_set_flags_and_no_others() {
    let suppress = PlainAction::suppress(Time(11), "a").authorised(true);
    let acknowledge = PlainAction::acknowledge(Time(11), "a").authorised(true);
    let policy = PolicyAction::suppress(Time(11), "a", "crew").authorised(true);
    let until = Call::SuppressUntil(SuppressUntil::new(Time(11), Time(20), "a", "crew").authorised(true));
    let another = Call::Raise(raise("b", Severity::Minor));
    let cleared = Clear::new(Time(11), "t", "lease-lost", Object::Tenant { tenant: "a" });
    let lift = |up_to| Call::Lift(Lift { up_to: Time(up_to) });
    for (calls, lit, active) in [
        (&[][..], true, 1),
        (&[minor()], true, 1),
        (&[Call::Plain(acknowledge)], false, 1),
        (&[Call::Plain(acknowledge.authorised(false))], true, 1),
        (&[Call::Plain(acknowledge), minor()], false, 1),
        (&[Call::Plain(suppress)], false, 1),
        (&[Call::Plain(suppress), minor()], false, 1),
        (&[Call::Policy(policy)], false, 1),
        (&[until], false, 1),
        (&[until, lift(19)], false, 1),
        (&[until, lift(20)], true, 1),
        (&[Call::Plain(suppress), another], true, 2),
        (&[Call::Clear(cleared)], false, 0),
        (&[Call::Expire(Expire { before: Time(11) })], false, 0),
    ] {
        let register = after(&[&[minor()], calls].concat());
        let wanted = if lit { MINOR } else { ALL };
        assert_eq!(looked(&register, ALL), [wanted[0], 0x3f, wanted[2], wanted[3], 0, 0, 0, active], "{calls:?}");
    }
}

#[test]
fn the_highest_of_flags_and_mask_is_waiting() {
    let register = after(&[minor(), Call::Raise(raise("b", Severity::Major))]);
    for (mask, waiting) in [(0x3f, 5), (0x10, 5), (0x2f, 4), (8, 4), (0x27, 0), (0, 0)] {
        let block = written(&register, ALL, 1, mask);
        assert_eq!(block, [0x18, mask, waiting, waiting.min(1), 0, 0, 0, 2], "mask {mask:#x}");
        // the mask stays
        assert_eq!(looked(&register, block), block);
    }
}

#[test]
fn a_block_is_made_anew_whatever_it_held() {
    assert_eq!(looked(&after(&[]), [0x12, 0xff, 0x34, 0x56, 0x78, 0x9a, 0xbc, 0xde]), ALL);
    assert_eq!(looked(&after(&[]), [0, 0xc0, 0, 0, 0, 0, 0, 0]), NONE);
    assert_eq!(looked(&after(&[minor()]), [0xff; PANEL_WIDTH]), MINOR);
}

#[test]
fn a_write_anywhere_but_to_the_mask_is_a_look() {
    let register = after(&[minor()]);
    assert_eq!(written(&register, NONE, 1, 0xff), MINOR);
    assert_eq!(written(&register, NONE, 1, 8), [8, 8, 4, 1, 0, 0, 0, 1]);
    for at in [0, 2, 3, 4, 7, 8, 9, 255, 256, 257, 1 << 24 | 1, u32::MAX] {
        assert_eq!(written(&register, [0, 0xff, 0, 0, 0, 0, 0, 0], at, 1), MINOR, "at {at}");
        assert_eq!(written(&register, [0, 0xc0, 0, 0, 0, 0, 0, 0], at, 0xff), [8, 0, 0, 0, 0, 0, 0, 1], "at {at}");
    }
}

#[test]
fn a_refusal_leaves_the_block_and_22_comes_before_30() {
    let register = after(&[minor()]);
    let short = &register[..register.len() - 1];
    for (bytes, length, refusal) in [
        (&register[..], 0, Refusal::AnswerLength),
        (&register, 7, Refusal::AnswerLength),
        (&register, 9, Refusal::AnswerLength),
        (short, 8, Refusal::Unsound),
        (short, 7, Refusal::Unsound),
        (&[], 8, Refusal::Unsound),
    ] {
        let mut block = vec![0xc5; length];
        assert_eq!(panel_look(bytes, &mut block), Err(refusal), "{length} bytes");
        assert_eq!(panel_write(bytes, &mut block, 1, 0), Err(refusal), "{length} bytes");
        assert_eq!(block, vec![0xc5; length]);
    }
    let mut panel = Panel::from_bytes([0xff; PANEL_WIDTH]);
    assert_eq!(panel.look(short), Err(Refusal::Unsound));
    assert_eq!(panel.set_mask(short, 0), Err(Refusal::Unsound));
    assert_eq!(panel, Panel::from_bytes([0xff; PANEL_WIDTH]));
}

#[test]
fn texts_and_details_light_no_lamp() {
    let plain = after(&[minor()]);
    let told = after(&[Call::Raise(raise("a", Severity::Minor).text("critical: the drive trips").details(&[0xff; 512]))]);
    let differing = (0..plain.len()).filter(|at| plain[*at] != told[*at]);
    assert!(plain != told && differing.into_iter().all(|at| TEXTS.contains(&(at % RECORD_WIDTH))));
    for block in [ALL, NONE, [0xff; PANEL_WIDTH]] {
        assert_eq!(looked(&plain, block), looked(&told, block));
        assert_eq!(written(&plain, block, 1, 0x18), written(&told, block, 1, 0x18));
    }
}

#[test]
fn a_panel_reads_its_bytes() {
    let mut bytes = after(&[minor()]);
    let register = Register::over(&mut bytes);
    let mut panel = Panel::new();
    assert_eq!((panel.as_bytes(), panel.waiting(), panel.is_lit(), panel), (&ALL, None, false, Panel::default()));
    panel.look(&register).unwrap();
    assert_eq!(panel.as_bytes(), &MINOR);
    assert_eq!(
        (panel.to_string(), format!("{panel:?}")),
        ("08 3f 04 01 00 00 00 01".into(), "Panel(08 3f 04 01 00 00 00 01)".into())
    );
    panel.set_mask(&register, 0xf0).unwrap();
    assert_eq!((panel.mask(), panel.lets_through(Severity::Minor), panel.waiting(), panel.active()), (0x30, false, None, 1));
    assert_eq!([panel.is_flagged(Severity::Minor), panel.is_waiting(Severity::Minor)], [true, false]);
    panel.write(register.as_bytes(), panel::LIT as u32, 7).unwrap();
    assert!(!panel.is_lit());
    // what no look made is read without a panic
    let other = Panel::from_bytes([0xff, 0xff, 0xff, 0xff, 0x12, 0x34, 0x56, 0x78]);
    assert_eq!((other.waiting(), other.is_lit(), other.active()), (None, true, 0x1234_5678));
}
