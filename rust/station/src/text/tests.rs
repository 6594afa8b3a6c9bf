//! The two ways between calls and their text.
use super::{read, write, Zone};
use crate::list::List;
use alarm_register::{
    Action, Call, Clear, CountActive, Expire, Lift, Limits, ListActive, ListHistory, Object, Operation, PlainAction,
    PolicyAction, Raise, Scope, Severity, Summarise, SuppressUntil, TakeAudit, Time,
};

const LIMITS: Limits = Limits { active: 2, history: 3, audit: 1 };
const STRINGS: [&str; 8] = [
    "plain",
    "",
    "two words",
    "a\"b\\c",
    "tab\tline\nend\r",
    "(a,b)=#",
    "Öl über 71 °C ❄",
    "\u{202e}back\u{0}\u{7f}\u{85}\u{feff}",
];

fn calls() -> Vec<Vec<u8>> {
    let mut calls = vec![
        Call::CountActive(CountActive),
        Call::Summarise(Summarise),
        Call::TakeAudit(TakeAudit { at_most: 65_535 }),
        Call::ListActive(ListActive { severity: None }),
        Call::ListActive(ListActive { severity: Some(Severity::Cleared) }),
        Call::ListHistory(ListHistory { tenant: Some(""), slice: None }),
        Call::Expire(Expire { before: Time(i64::MIN) }),
        Call::Expire(Expire { before: Time(i64::MAX) }),
        Call::Lift(Lift { up_to: Time(i64::MIN) }),
        Call::Lift(Lift { up_to: Time(i64::MAX) }),
        Call::SuppressUntil(SuppressUntil::new(Time(i64::MIN), Time(i64::MAX), "a", "p").authorised(true)),
    ];
    for (place, string) in STRINGS.into_iter().enumerate() {
        let time = Time(place as i64 * 1_000_000_007 - 3);
        let store = Object::SessionStore { nf: string, shard: if place % 2 == 0 { None } else { Some(string) } };
        let queue = Object::DataPlaneQueue { nf: string, interface: "i", queue: 7 };
        let raise = Raise::new(time, string, string, Severity::ALL[place % 6], "other: a.b ", store).tenant(string).text(string);
        calls.push(Call::Raise(raise.details(&[0xff, b'"', 0xc3, 0xa9, 0xc3])));
        calls.push(Call::Clear(Clear::new(time, string, "lease-lost", queue).slice(string).region(string)));
        calls.push(Call::Plain(PlainAction { action: Action::Suppress, time, id: string, authorised: place % 2 == 0 }));
        let scope = [Scope::Alarm(string), Scope::Tenant(string), Scope::Global][place % 3];
        let policy = PolicyAction::suppress(time, string, string).reason(string).scope(scope).correlation(string);
        calls.push(Call::Policy(policy.critical_allowed(place % 2 == 0).denial(string)));
        let until = SuppressUntil::new(time, Time(time.0 + 1), string, string).tenant(string).reason(string).scope(scope);
        calls.push(Call::SuppressUntil(until.correlation(string).authorised(place % 2 == 0).denial(string)));
    }
    calls.iter().map(|call| call.bytes().as_bytes().to_vec()).collect()
}

#[test]
fn a_list_comes_back_from_its_text() {
    let mut list = List { limits: LIMITS, answer: Some(1552), calls: calls() };
    let damaged: Vec<Vec<u8>> = list.calls.iter().map(|call| call[..call.len() - 1].to_vec()).collect();
    list.calls.extend(damaged);
    list.calls.push(vec![]);
    for zone in ["UTC", "+01:00", "-09:30"] {
        let zone = Zone::of(zone).unwrap();
        let text = write(&list, zone, false);
        assert_eq!(read(&text).as_ref(), Ok(&list));
        assert_eq!(write(&read(&text).unwrap(), zone, false), text);
        assert_eq!(read(&write(&list, zone, true)).as_ref(), Ok(&list));
    }
}

fn read_line(line: &str) -> Result<List, String> {
    read(&format!("limits active=2 history=3 audit=1\n{line}\n")).map_err(|fault| fault.to_string())
}

fn fault(line: &str) -> String {
    read_line(line).unwrap_err()
}

#[test]
fn faults_are_told_with_line_and_column() {
    let raise = "2026-03-14 09:30 raise id=a type=t severity=minor";
    let cases = [
        ("2026-03-14 09:30 rise id=a", "line 2, column 18: an operation is raise, clear,"),
        ("raise id=a", "line 2, column 1: raise needs its time before it"),
        ("2026-03-14 09:30 summary", "line 2, column 18: summary has no time"),
        ("2026-03-14 09:30 acknowledge id=a", "line 2, column 34: authorised= is missing"),
        ("2026-03-14 09:30 acknowledge id=a authorised=maybe", "line 2, column 46: authorised is yes or no"),
        ("2026-03-14 09:30 acknowledge id=ů🚡 authorised=maybe", "line 2, column 47: authorised is yes or no"),
        ("2026-03-14 09:30 acknowledge id=a id=b authorised=no", "line 2, column 35: id is given twice"),
        ("2026-03-14 09:30 acknowledge id=a authorised=no colour=red", "line 2, column 49: acknowledge has no field colour"),
        (&format!("{raise} cause=lease object=tenant(a)"), "line 2, column 57: the cause is not a known name"),
        (&format!("{raise} cause=lease-lost object=rope(a)"), "line 2, column 75: an object is nf(kind,instance)"),
        (&format!("{raise} cause=lease-lost object=tenant(a,b)"), "line 2, column 75: an object is nf(kind,instance)"),
        (
            &format!("{raise} cause=lease-lost object=tenant(a) region=\"\""),
            "line 2, column 92: the raise has a region that is present and empty",
        ),
        (&format!("{raise} cause=lease-lost object=tenant(a) text=\"open"), "line 2, column 90: this quote is not closed"),
        (&format!("{raise} cause=lease-lost object=tenant(a) text=\"\\q\""), "line 2, column 91: behind a backslash"),
        (&format!("{raise} cause=lease-lost object=tenant(a) text=\"\\xff\""), "line 2, column 90: text is not UTF-8"),
        (
            &format!("{raise} cause=lease-lost object=tenant(a) text=\"{}\\xff\"", "x".repeat(121)),
            "line 2, column 90: text is not UTF-8",
        ),
        (
            &format!("{raise} cause=lease-lost object=tenant({})", "x".repeat(65)),
            "line 2, column 82: an object's string is 65 bytes long",
        ),
        ("expire 2026-03-14 09:30", "line 2, column 8: the cutoff is written: expire before 2026-03-14"),
        ("lift 2026-03-14 09:30", "line 2, column 6: the cutoff is written: lift up-to 2026-03-14"),
        ("lift before 2026-03-14 09:30", "line 2, column 6: the cutoff is written: lift up-to 2026-03-14"),
        ("lift up-to 2026-03-14 09:30 id=a", "line 2, column 29: nothing more was expected here"),
        ("2026-03-14 09:30 lift", "line 2, column 18: the cutoff stands behind: lift up-to 2026-03-14"),
        ("2026-03-14 09:30 expire", "line 2, column 18: the cutoff stands behind: expire before 2026-03-14"),
        ("take-audit at-most=65536", "line 2, column 20: at-most is a number"),
        ("raw 0b0", "line 2, column 5: raw bytes"),
        ("raw zz", "line 2, column 5: nothing more was expected"),
        ("09:30 acknowledge id=a authorised=no", "line 2, column 1: this time has no date"),
        ("zone 1h", "line 2, column 6: a zone is Z, UTC or"),
        ("zone +15:00", "line 2, column 6: a zone is at most 14 hours"),
        ("limits active=2 history=3 audit=1", "line 2, column 1: the limits stand once"),
    ];
    for (line, said) in cases {
        assert!(fault(line).starts_with(said), "{line}\n{}", fault(line));
    }
    assert!(read("").unwrap_err().to_string().starts_with("line 1, column 1: the register's limits are missing"));
    assert!(read("# nothing\nsummary\n").unwrap_err().to_string().starts_with("line 2, column 1: the register's limits"));
}

/// The line of a suppression until an end as it is written. The end begins in column 33.
fn until(end: &str) -> String {
    format!("2026-03-14 13:06 suppress-until {end} id=a principal=p scope=global critical-allowed=no authorised=yes")
}

#[test]
fn an_end_is_told_where_it_stands() {
    let late =
        "line 2, column 33: the suppression's end is not later than the call's time; write its date where it is on another day";
    for end in [
        "2026-03-14 13:06",
        "2026-03-14 13:05:59.999999999",
        "1970-01-01 00:00",
        "2026-03-14 14:06 +01:00",
        "14 March 2026 13:06",
    ] {
        assert_eq!(fault(&until(end)), late, "{end}");
    }
    let earlier = |line: &str| fault(&format!("zone +01:00\nday 2026-03-14\n{line}"));
    let line = "23:30 suppress-until 02:00 id=a principal=p scope=global critical-allowed=no authorised=yes";
    assert_eq!(earlier(line), late.replace("line 2, column 33", "line 4, column 22"));
    for (end, said) in [
        ("", "line 2, column 34: the end stands here: suppress-until 2026-03-14 16:00"),
        ("end=16:00", "line 2, column 33: the end stands here: suppress-until 2026-03-14 16:00"),
        ("16:00", "line 2, column 33: this time has no date"),
        ("2026-03-14 25:00", "line 2, column 44: no clock shows this time"),
        ("2026-03-14 16:00 end=1", "line 2, column 50: suppress-until has no field end"),
    ] {
        assert!(fault(&until(end)).starts_with(said), "{end}: {}", fault(&until(end)));
    }
    assert!(
        fault("suppress-until 2026-03-14 16:00 id=a").starts_with("line 2, column 1: suppress-until needs its time before it")
    );
}

#[test]
fn an_end_is_taken_from_the_next_moment_on() {
    let whole = read_line(&until("2026-03-14 13:06:00.000000001")).unwrap();
    let said = "2026-03-14 14:06:00 suppress-until 2026-03-14 14:06:00.000000001 id=a principal=p scope=global";
    assert!(write(&whole, Zone::of("+01:00").unwrap(), false).contains(said));
    for end in ["2026-03-14 16:00", "15 March 2026 02:00", "14.3.2026 14:07 +01:00", "2262-04-11 23:47:16"] {
        assert!(read_line(&until(end)).is_ok(), "{end}");
    }
}

#[test]
fn a_suppression_that_ends_before_it_begins_is_kept_as_its_bytes() {
    for (time, end) in [(0, 0), (1, 0), (i64::MAX, i64::MIN)] {
        let call = SuppressUntil::new(Time(time), Time(end), "a", "p").call().as_bytes().to_vec();
        let list = List { limits: LIMITS, answer: None, calls: vec![call] };
        let written = write(&list, Zone::default(), false);
        assert!(written.ends_with(" # refused: 34: the suppression's end is not later than the call's time\n"), "{written}");
        assert!(written.lines().nth(1).is_some_and(|line| line.starts_with("raw 0d")), "{written}");
        assert_eq!(read(&written), Ok(list));
    }
}

/// The line of a raise with a text as it is written. A text in quotes begins in column 91, behind the quote.
fn with_text(written: &str) -> String {
    format!("2026-03-14 09:30 raise id=a type=t severity=minor cause=lease-lost object=tenant(a) text={written}")
}

#[test]
fn the_character_that_is_one_too_many_is_named_where_it_is_written() {
    let cases = [
        (format!("\"{}ů\"", "é".repeat(120)), 211, 121, "`ů`, U+016F"),
        (format!("\"{}é\"", "x".repeat(124)), 211, 125, "`x`, U+0078"),
        ("é".repeat(121), 210, 121, "`é`, U+00E9"),
        // an escape is one character, and so are the bytes of one; a letter and its mark are two
        (format!("\"{}\\u{{1f6a1}}\"", "\\n".repeat(120)), 331, 121, "`🚡`, U+1F6A1"),
        (format!("\"{}\\n\"", "\\xc3\\xa9".repeat(120)), 1051, 121, "`\\n`, U+000A"),
        (format!("\"{}\"", "e\u{301}".repeat(61)), 211, 122, "`e`, U+0065"),
        (format!("\"{}\"", "\\u{0}".repeat(121)), 691, 121, "`\\u{0}`, U+0000"),
        // both limits are passed: characters are what people see
        (format!("\"{}\"", "→".repeat(121)), 211, 121, "`→`, U+2192"),
    ];
    for (written, column, count, named) in cases {
        let said = format!("text has {count} characters; at most 120 are allowed, and the first too many is {named}");
        assert_eq!(fault(&with_text(&written)), format!("line 2, column {column}: {said}"));
    }
    assert_eq!(fault(&with_text(&"→".repeat(86))), "line 2, column 90: text is 258 bytes long; at most 256 are allowed");
}

#[test]
fn texts_at_their_limits_are_taken() {
    let both = "é".repeat(112) + &"🚡".repeat(8);
    assert_eq!((both.chars().count(), both.len()), (120, 256));
    for text in ["x".repeat(120), "é".repeat(120), "→".repeat(85), "🚡".repeat(64), both] {
        let list = read_line(&with_text(&text)).unwrap();
        assert!(list.calls[0].windows(text.len()).any(|bytes| bytes == text.as_bytes()), "{text}");
        assert_eq!(read(&write(&list, Zone::default(), false)), Ok(list));
    }
}

#[test]
fn a_raise_with_a_character_too_many_is_kept_as_its_bytes() {
    let object = Object::Tenant { tenant: "a" };
    let raise =
        |text: &str| Raise::new(Time(0), "a", "t", Severity::Minor, "lease-lost", object).text(text).call().as_bytes().to_vec();
    for text in ["x".repeat(121), "é".repeat(128), "x".repeat(256)] {
        let list = List { limits: LIMITS, answer: None, calls: vec![raise(&text)] };
        let written = write(&list, Zone::default(), false);
        assert!(written.ends_with(" # refused: 33: the raise's text has more than 120 code points\n"), "{written}");
        assert!(written.lines().nth(1).is_some_and(|line| line.starts_with("raw 01")), "{written}");
        assert_eq!(read(&written), Ok(list));
    }
}
