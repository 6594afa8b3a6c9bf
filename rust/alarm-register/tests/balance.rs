//! The balance after every call of a list, on a register with room for 2 active alarms, 3 entries of history and 1 event.
use alarm_register::{
    Balance, Clear, Expire, Lift, Limits, Object, Operation, PlainAction, Raise, Refusal, Register, Severity, Summarise,
    SuppressUntil, Time, ANSWER_ROOM,
};

const LIMITS: Limits = Limits { active: 2, history: 3, audit: 1 };

fn raise(time: i64, id: &str, tenant: &str) -> Vec<u8> {
    bytes(&Raise::new(Time(time), id, "t", Severity::Minor, "lease-lost", Object::Tenant { tenant }))
}

fn clear(tenant: &str) -> Vec<u8> {
    bytes(&Clear::new(Time(0), "t", "lease-lost", Object::Tenant { tenant }))
}

fn expire(before: i64) -> Vec<u8> {
    bytes(&Expire { before: Time(before) })
}

fn bytes(operation: &impl Operation) -> Vec<u8> {
    operation.call().as_bytes().to_vec()
}

/// An answer without items: a code and its number.
fn answer(code: u8, number: u64) -> Vec<u8> {
    [&[code, 0, 0, 0, 0, 0, 0, 0], &number.to_be_bytes()[..]].concat()
}

/// Performs a call and adds it where it is not refused; gives the answer's code.
fn performed(register: &mut Register<'_>, balance: &mut Balance, call: &[u8], room: usize) -> Result<u8, Refusal> {
    let mut slice = vec![0; room];
    let answer = register.step(call, &mut slice)?;
    balance.add(call, answer);
    Ok(answer[0])
}

#[test]
fn the_four_figures_after_every_call() {
    let suppress = SuppressUntil::new(Time(13), Time(15), "d", "leader").authorised(true);
    // what is done, its code or its refusal, and then: raised, active length, cleared, expired
    let list = [
        ("a raise", raise(10, "a", "a"), Ok(1), [1, 1, 0, 0]),
        ("the same again", raise(11, "b", "a"), Ok(2), [1, 1, 0, 0]),
        ("an active id", raise(11, "a", "b"), Err(Refusal::IdActive), [1, 1, 0, 0]),
        ("another raise", raise(12, "b", "b"), Ok(1), [2, 2, 0, 0]),
        ("one too many", raise(12, "c", "c"), Ok(5), [2, 2, 0, 0]),
        ("a summary", bytes(&Summarise), Ok(11), [2, 2, 0, 0]),
        ("a clear", clear("a"), Ok(3), [2, 1, 1, 0]),
        ("a clear without active", clear("a"), Ok(4), [2, 1, 1, 0]),
        ("no call", vec![], Err(Refusal::Operation), [2, 1, 1, 0]),
        ("an expiry that takes none", expire(12), Ok(11), [2, 1, 1, 0]),
        ("an expiry that takes one", expire(13), Ok(11), [2, 0, 1, 1]),
        ("raised anew", raise(20, "d", "b"), Ok(1), [3, 1, 1, 1]),
        ("an action with policy", bytes(&suppress), Ok(6), [3, 1, 1, 1]),
        ("a lift that takes one", bytes(&Lift { up_to: Time(15) }), Ok(11), [3, 1, 1, 1]),
        ("an action that is denied", bytes(&PlainAction::acknowledge(Time(14), "d")), Ok(8), [3, 1, 1, 1]),
        ("a second active one", raise(21, "e", "e"), Ok(1), [4, 2, 1, 1]),
        ("an expiry that takes two", expire(99), Ok(11), [4, 0, 1, 3]),
    ];
    let mut bytes = vec![7; LIMITS.register_length()];
    let mut register = Register::open(&mut bytes, LIMITS).unwrap();
    let mut balance = Balance::default();
    for (what, call, code, [raised, active, cleared, expired]) in list {
        assert_eq!(performed(&mut register, &mut balance, &call, ANSWER_ROOM), code, "{what}");
        assert_eq!(balance, Balance { raised, cleared, expired }, "{what}");
        assert_eq!(register.active_length().map(u128::from), Some(active), "{what}");
        assert!(balance.holds(0, active), "{what}");
    }
}

#[test]
fn a_call_that_is_refused_for_its_slice_counts_nothing() {
    let mut bytes = vec![0; LIMITS.register_length()];
    let mut register = Register::open(&mut bytes, LIMITS).unwrap();
    let mut balance = Balance::default();
    let refused = performed(&mut register, &mut balance, &raise(10, "a", "a"), ANSWER_ROOM - 1);
    assert_eq!((refused, register.active_length(), balance), (Err(Refusal::AnswerLength), Some(0), Balance::default()));
}

#[test]
fn sums_that_begin_on_a_register_in_use_hold_from_its_active_length() {
    let mut bytes = vec![0; LIMITS.register_length()];
    let mut register = Register::open(&mut bytes, LIMITS).unwrap();
    let mut before = Balance::default();
    for call in [raise(10, "a", "a"), raise(11, "b", "b")] {
        performed(&mut register, &mut before, &call, ANSWER_ROOM).unwrap();
    }
    let mut since = Balance::default();
    for call in [clear("b"), raise(12, "c", "c"), expire(12)] {
        performed(&mut register, &mut since, &call, ANSWER_ROOM).unwrap();
    }
    assert_eq!(since, Balance { raised: 1, cleared: 1, expired: 1 });
    assert_eq!(register.active_length(), Some(1));
    assert!(since.holds(2, 1) && !since.holds(0, 1));
}

#[test]
fn one_figure_that_is_off_is_noticed() {
    let balance = Balance { raised: 9, cleared: 5, expired: 1 };
    assert!(balance.holds(0, 3));
    assert!(!balance.holds(0, 2) && !balance.holds(1, 3));
    assert!(!Balance { raised: 8, ..balance }.holds(0, 3));
    assert!(!Balance { cleared: 6, ..balance }.holds(0, 3));
    assert!(!Balance { expired: 0, ..balance }.holds(0, 3));
}

#[test]
fn no_sum_wraps() {
    let most = u128::from(u64::MAX);
    let mut balance = Balance::default();
    for _ in 0..2 {
        balance.add(&expire(0), &answer(11, u64::MAX));
    }
    assert_eq!(balance, Balance { expired: 2 * most, ..Balance::default() });
    assert!(balance.holds(2 * most, 0) && !balance.holds(2 * most - (1 << 64), 0));
    // by 2^128 apart, and so equal where sums wrap
    assert!(!Balance { raised: 0, cleared: u128::MAX, expired: 1 }.holds(0, 0));
    assert!(Balance { raised: u128::MAX, cleared: u128::MAX, expired: 1 }.holds(1, 0));
    let mut full = Balance { expired: u128::MAX, ..Balance::default() };
    full.add(&expire(0), &answer(11, 1));
    assert_eq!(full.expired, u128::MAX);
}

#[test]
fn numbers_of_other_operations_and_bytes_that_are_no_answer_count_nothing() {
    let mut balance = Balance::default();
    balance.add(&bytes(&Summarise), &answer(11, 5));
    balance.add(&bytes(&Lift { up_to: Time(0) }), &answer(11, 5));
    balance.add(&raise(0, "a", "a"), &answer(5, 2));
    balance.add(&expire(0), &answer(11, 5)[..15]);
    balance.add(&raise(0, "a", "a"), &[1]);
    balance.add(&[], &[]);
    assert_eq!(balance, Balance::default());
}

#[test]
fn bytes_without_a_header_have_no_active_length() {
    assert_eq!(Register::over(&mut [0; 19]).active_length(), None);
    assert_eq!(Register::over(&mut [0; 20]).active_length(), Some(0));
}
