//! `station twin`: other texts and details, the same figures.
use crate::chain;
use crate::failure::{Failure, FINE, FOUND};
use crate::figures;
use crate::files;
use crate::list::List;
use crate::options::{Form, Options};
use crate::replay::{self, Run, Step};
use crate::table::{column, json_object, json_string, numbers, Cell, Table};
use alarm_register::layout::{alarm, header};
use alarm_register::{check_call, Call, Raise, Refusal, HEAD_WIDTH, RECORD_WIDTH};

pub const HELP: &str = "\
station twin LIST [--json | --csv]

Makes a twin of LIST (a .calls file, or - for standard input): the same calls, but
every raise has another text, and details where it had none and none where it had
some. A raise that a register refuses for what it says stays as it is. Runs both
from fresh registers and compares, after each call, number, answer and register
byte for byte outside text and details; at the end the figures of `station
recount`, as they are printed.

That texts of at most 120 characters and 256 bytes, and details, change nothing
else is proved for every list; this shows it on yours.

  --json, --csv   the result for scripts

Exit status: 0 all is the same, 1 something differs, 2 the command line is not
understood, 3 LIST is not a list of calls, 4 a file cannot be read or written.
";

pub fn command(options: &Options) -> Result<u8, Failure> {
    let list = files::list(&options.file)?;
    let twin =
        List { calls: list.calls.iter().enumerate().map(|(place, call)| other_texts(place, call)).collect(), ..list.clone() };
    let replaced = list.calls.iter().zip(&twin.calls).filter(|(call, other)| call != other).count();
    let compared = compare(&list, &twin).map_err(|fault| Failure::input(&options.file, fault))?;
    let verdict = match &compared.difference {
        None => format!("The same: other texts and details in {replaced} raises change no figure and no other byte."),
        Some(place) => format!("Not the same: {place}."),
    };
    let table = table(&compared, replaced);
    let same = compared.difference.is_none();
    let shown = match options.form {
        Form::Page => format!("{}\n{verdict}\n", table.ruled()),
        Form::Csv => table.csv(),
        Form::Json => json_object(&[("same", same.to_string()), ("verdict", json_string(&verdict)), ("compared", table.json())]),
    };
    files::print(shown.as_bytes())?;
    Ok(if same { FINE } else { FOUND })
}

/// A raise with another text and other details; any other call as it is.
fn other_texts(place: usize, call: &[u8]) -> Vec<u8> {
    let (Ok(()), Some(Call::Raise(raise))) = (check_call(call), Call::read(call)) else { return call.to_vec() };
    // characters of one to four bytes
    let mut text = format!("another text → call n° {} 🚡", place + 1);
    if text == raise.text {
        text += ".";
    }
    let details = if raise.details.is_none() { Some(&b"other details"[..]) } else { None };
    let twin = Raise { text: &text, details, ..raise };
    Call::Raise(twin).bytes().as_bytes().to_vec()
}

/// What was compared, and the first difference.
struct Compared {
    calls: usize,
    answer_bytes: usize,
    register_bytes: usize,
    figures: usize,
    figure_bytes: usize,
    difference: Option<String>,
}

impl Compared {
    /// Compares what a call did in both runs.
    fn add(&mut self, number: usize, [step, other]: [Step<'_>; 2]) {
        self.calls += 1;
        self.answer_bytes += step.got.map_or(0, <[u8]>::len);
        self.register_bytes += step.register.len();
        if masked_answer(&step) != masked_answer(&other) {
            self.difference.get_or_insert(format!("call {number} is answered otherwise"));
        }
        if masked_register(step.register) != masked_register(other.register) {
            self.difference.get_or_insert(format!("the registers differ after call {number}"));
        }
    }
}

fn compare(list: &List, twin: &List) -> Result<Compared, String> {
    let mut compared = Compared { calls: 0, answer_bytes: 0, register_bytes: 0, figures: 0, figure_bytes: 0, difference: None };
    let [first, second] = replay::run_both([list, twin], |number, steps| compared.add(number, steps))?;
    let figures = |(machine, tally): &Run| figures::of(machine, tally).map_err(|refusal| refusal.to_string());
    let (counted, other) = (figures(&first)?, figures(&second)?);
    let printed = figures::table(&counted).csv();
    if printed != figures::table(&other).csv() {
        compared.difference.get_or_insert("the figures differ".to_string());
    }
    Ok(Compared { figures: counted.len(), figure_bytes: printed.len(), ..compared })
}

/// What a call got, with text and details taken as zero in the answer's alarm records.
fn masked_answer(step: &Step<'_>) -> Result<Vec<u8>, Refusal> {
    let mut answer = step.got?.to_vec();
    let alarms = matches!(answer.first(), Some(1 | 2 | 6 | 7)) || matches!(step.call.first(), Some(8 | 9));
    if alarms {
        answer[HEAD_WIDTH..].chunks_exact_mut(RECORD_WIDTH).for_each(|record| record[alarm::TEXTS].fill(0));
    }
    Ok(answer)
}

/// A register with text and details taken as zero in the records of the active and the history chain.
fn masked_register(register: &[u8]) -> Vec<u8> {
    let [active, history, ..] = header::HEADS;
    let mut masked = register.to_vec();
    for record in chain::records(register, active).chain(chain::records(register, history)) {
        masked[record..][alarm::TEXTS].fill(0);
    }
    masked
}

fn table(compared: &Compared, replaced: usize) -> Table {
    let row = |what: &str, number: usize, bytes: Option<usize>| {
        let bytes = bytes.map_or(Cell::None, |bytes| Cell::Number(bytes as u64));
        vec![Cell::of(what), Cell::Number(number as u64), bytes]
    };
    Table {
        name: "twin",
        title: "A LIST AND ITS TWIN".to_string(),
        columns: vec![column("compared"), numbers("number"), numbers("bytes")],
        rows: vec![
            row("raises with another text and other details", replaced, None),
            row("answers, after each call", compared.calls, Some(compared.answer_bytes)),
            row("registers, after each call", compared.calls, Some(compared.register_bytes)),
            row("figures, at the end", compared.figures, Some(compared.figure_bytes)),
        ],
    }
}

#[cfg(test)]
mod tests {
    use super::{masked_answer, masked_register, other_texts, Step};
    use alarm_register::layout::alarm::{END, RAISES};
    use alarm_register::{
        check_call, Limits, Object, Operation, Raise, Register, Severity, Time, ANSWER_ROOM, HEAD_WIDTH, RECORD_WIDTH,
    };

    fn raise(text: &str) -> Vec<u8> {
        let raise = Raise::new(Time(0), "a", "t", Severity::Minor, "lease-lost", Object::Tenant { tenant: "a" });
        raise.text(text).call().as_bytes().to_vec()
    }

    #[test]
    fn another_text_keeps_both_limits_where_a_raise_does() {
        let both = "é".repeat(112) + &"🚡".repeat(8);
        let same = format!("another text → call n° {} 🚡", usize::MAX);
        for text in ["", &both, &"x".repeat(120), &same] {
            let other = other_texts(usize::MAX - 1, &raise(text));
            assert_ne!(other, raise(text));
            assert_eq!(check_call(&other), Ok(()), "{text}");
        }
        for text in ["x".repeat(121), "é".repeat(128), "x".repeat(257)] {
            assert_eq!(other_texts(0, &raise(&text)), raise(&text));
        }
    }

    #[test]
    fn twins_may_differ_up_to_the_raises_of_an_alarm_and_not_in_them_or_the_end() {
        let limits = Limits { active: 1, history: 1, audit: 1 };
        let (mut bytes, mut room) = (vec![0; limits.register_length()], [0; ANSWER_ROOM]);
        let raise = raise("");
        let got = Register::open(&mut bytes, limits).unwrap().step(&raise, &mut room).unwrap().to_vec();
        let answered = |got: &[u8]| masked_answer(&Step { call: &raise, got: Ok(got), register: &[] });
        for (at, same) in [(RAISES - 1, true), (RAISES, false), (RAISES + 3, false), (END, false), (END + 8, false)] {
            let (mut other_bytes, mut other_got) = (bytes.clone(), got.clone());
            other_bytes[RECORD_WIDTH + at] ^= 255;
            other_got[HEAD_WIDTH + at] ^= 255;
            assert_eq!(masked_register(&bytes) == masked_register(&other_bytes), same, "byte {at}");
            assert_eq!(answered(&got) == answered(&other_got), same, "byte {at}");
        }
    }
}
