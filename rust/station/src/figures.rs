//! The figures of a list of calls, and of a report that is to be recounted.
use crate::raises::ActiveRaises;
use crate::replay::{Machine, Tally};
use crate::table::{column, numbers, Cell, Table};
use crate::tables::suppressed;
use alarm_register::{code_name, Count, CountActive, ListActive, ListHistory, Operation, Refusal, Summarise, TakeAudit};
use std::ops::RangeInclusive;

/// A figure: its name and its value.
pub type Figure = (String, String);

/// The codes of answers that are counted by themselves.
const CODES: RangeInclusive<u8> = 1..=10;
/// The names of the numbers that expire calls gave, added up, and of those that lift calls gave.
const EXPIRED: &str = "expired";
const LIFTED: &str = "lifted";

/// Whether a figure counts calls by their answer's code, or adds up the numbers that expire calls or lift calls gave.
pub fn is_by_answer(name: &str) -> bool {
    [EXPIRED, LIFTED].contains(&name) || CODES.filter_map(code_name).any(|code| code == name)
}

/// The figures of a list, from its answers and the register at its end.
pub fn of(machine: &Machine, tally: &Tally) -> Result<Vec<Figure>, Refusal> {
    let mut figures = vec![("calls".to_string(), tally.calls.to_string())];
    let mut add = |name: String, value: String| figures.push((name, value));
    add("refused".to_string(), tally.refused.values().map(|often| often.calls).sum::<u64>().to_string());
    for (number, often) in &tally.refused {
        add(format!("refused {number}"), often.calls.to_string());
    }
    for code in CODES {
        let name = code_name(code).unwrap_or_default();
        add(name.to_string(), tally.answers(code).to_string());
    }
    add(EXPIRED.to_string(), tally.balance.expired.to_string());
    add(LIFTED.to_string(), tally.lifted.to_string());
    at_end(machine, &mut add)?;
    for raises in &tally.causes {
        add(format!("alarms {}", raises.cause), raises.alarms.to_string());
        add(format!("raises {}", raises.cause), raises.raises.to_string());
    }
    Ok(figures)
}

/// The figures of the register at the list's end.
fn at_end(machine: &Machine, add: &mut impl FnMut(String, String)) -> Result<(), Refusal> {
    let active = machine.look(&ListActive { severity: None }.call())?;
    let raises = ActiveRaises::of(&active);
    let answer = machine.look(&Summarise.call())?;
    if let Some(summary) = Summarise::read_answer(&answer) {
        add("active at end".to_string(), summary.active.to_string());
        add("worst at end".to_string(), summary.worst.map_or("none", |worst| worst.name()).to_string());
        add("readiness at end".to_string(), summary.readiness.to_string());
        add("suppressed at end".to_string(), suppressed(&active).to_string());
        add("raises at end".to_string(), raises.sum.to_string());
        add("most raises at end".to_string(), raises.most.to_string());
        add("audit events stored".to_string(), summary.successes.to_string());
        add("audit events lost".to_string(), summary.failures.to_string());
    }
    let answer = machine.look(&TakeAudit { at_most: u16::MAX }.call())?;
    add("audit events held at end".to_string(), TakeAudit::read_answer(&answer).map_or(0, |events| events.len()).to_string());
    let answer = machine.look(&ListHistory::default().call())?;
    add("history entries at end".to_string(), ListHistory::read_answer(&answer).map_or(0, |alarms| alarms.len()).to_string());
    let answer = machine.look(&CountActive.call())?;
    let counts: Vec<Count<'_>> = CountActive::read_answer(&answer).into_iter().flatten().collect();
    for Count { severity, alarms, cause } in &counts {
        add(format!("active at end {severity} {cause}"), alarms.to_string());
    }
    for Count { severity, cause, .. } in &counts {
        add(format!("raises at end {severity} {cause}"), raises.of_pair(*severity, cause).to_string());
    }
    Ok(())
}

/// Figures as a table, which as CSV is a report.
pub fn table(figures: &[Figure]) -> Table {
    let rows = figures.iter().map(|(name, value)| vec![Cell::of(name), Cell::of(value)]).collect();
    Table {
        name: "figures",
        title: "FIGURES OF THE RAW CALLS".to_string(),
        columns: vec![column("figure"), numbers("value")],
        rows,
    }
}

/// Whether a name can be that of a figure; whether it has one depends on the calls.
fn known(name: &str, counted: &[Figure]) -> bool {
    let opens = ["refused ", "alarms ", "raises "];
    // a severity and a cause: `station reach` shows counts of a severity alone, which a recount does not have
    let known_open = match ["active at end ", "raises at end "].iter().find_map(|open| name.strip_prefix(open)) {
        Some(pair) => pair.contains(' '),
        None => opens.iter().any(|open| name.starts_with(open)),
    };
    known_open || counted.iter().any(|(figure, _)| figure == name)
}

/// The figures of a report, or what is wrong with it. `counted` are those of the raw calls.
pub fn report(text: &str, counted: &[Figure]) -> Result<Vec<Figure>, String> {
    let mut figures: Vec<Figure> = Vec::new();
    let rows = rows(text)?;
    let mut rows = rows.into_iter();
    match rows.next() {
        Some((_, names)) if names == ["figure", "value"] => {}
        Some((line, _)) => return Err(format!("line {line}: a report begins with the line `figure,value`")),
        None => return Err("the file is empty".to_string()),
    }
    for (line, row) in rows {
        let [name, value] = <[String; 2]>::try_from(row)
            .map_err(|row| format!("line {line}: two fields are needed, and {} are there", row.len()))?;
        let (name, value) = (name.trim().to_string(), value.trim().to_string());
        if !known(&name, counted) {
            return Err(format!("line {line}: there is no figure `{name}`; `station recount LIST --csv` lists them"));
        }
        if figures.iter().any(|(earlier, _)| *earlier == name) {
            return Err(format!("line {line}: the figure `{name}` is given twice"));
        }
        figures.push((name, value));
    }
    Ok(figures)
}

/// The rows of a CSV text by RFC 4180, each with its line; lines without anything are passed over. Semicolons separate the
/// fields, as some spreadsheets write them, where the first line has one and no comma.
fn rows(text: &str) -> Result<Vec<(usize, Vec<String>)>, String> {
    let text = text.strip_prefix('\u{feff}').unwrap_or(text);
    let first = text.lines().next().unwrap_or_default();
    let separator = if first.contains(';') && !first.contains(',') { ';' } else { ',' };
    let (mut rows, mut row, mut field) = (Vec::new(), Vec::new(), String::new());
    let (mut line, mut start, mut inside, mut was_quoted) = (1, 1, false, false);
    let mut rest = text.chars().filter(|c| *c != '\r').chain(['\n']).peekable();
    while let Some(c) = rest.next() {
        match c {
            '"' if inside && rest.peek() == Some(&'"') => field.extend(rest.next()),
            '"' if inside => inside = false,
            '"' if field.is_empty() && !was_quoted => (inside, was_quoted) = (true, true),
            '"' => return Err(format!("line {line}: a quote inside a field must be doubled and the field quoted")),
            c if c == separator && !inside => {
                row.push(std::mem::take(&mut field));
                was_quoted = false;
            }
            '\n' if !inside => {
                row.push(std::mem::take(&mut field));
                let whole = std::mem::take(&mut row);
                if whole != [""] || was_quoted {
                    rows.push((start, whole));
                }
                was_quoted = false;
                line += 1;
                start = line;
            }
            c => {
                line += usize::from(c == '\n');
                field.push(c);
            }
        }
    }
    if inside {
        return Err(format!("line {start}: a quote is not closed"));
    }
    Ok(rows)
}

#[cfg(test)]
mod tests {
    use super::{report, rows};

    #[test]
    fn csv_is_read_by_its_rules() {
        let read = rows("a,b\r\n\n\"x, \"\"y\"\"\",\"two\nlines\"\nc,\n").unwrap();
        let plain: Vec<Vec<&str>> = read.iter().map(|(_, row)| row.iter().map(String::as_str).collect()).collect();
        assert_eq!(plain, [vec!["a", "b"], vec!["x, \"y\"", "two\nlines"], vec!["c", ""]]);
        assert_eq!(read[1].0, 3);
        assert_eq!(rows("a;b\n\"x;y\";1,5\n").unwrap()[1].1, ["x;y", "1,5"]);
        assert!(rows("a,\"b\n").is_err());
        assert!(rows("a,b\"c\n").is_err());
    }

    #[test]
    fn faults_of_reports_have_their_line() {
        let counted = [("calls".to_string(), "2".to_string())];
        assert_eq!(report("", &counted).unwrap_err(), "the file is empty");
        assert!(report("name,value\n", &counted).unwrap_err().starts_with("line 1: a report begins"));
        assert!(report("figure,value\ncalls,1\ncals,2\n", &counted)
            .unwrap_err()
            .starts_with("line 3: there is no figure `cals`"));
        assert!(report("figure,value\ncalls,1,2\n", &counted).unwrap_err().starts_with("line 2: two fields"));
        assert!(report("figure,value\ncalls,1\ncalls,1\n", &counted).unwrap_err().ends_with("given twice"));
        assert_eq!(report("figure,value\nraises other:a.b,7\nactive at end major other:a.b,1\n", &counted).unwrap().len(), 2);
        assert_eq!(report("figure,value\nraises at end major other:a.b,7\n", &counted).unwrap().len(), 1);
        for name in ["active at end major", "raises at end major"] {
            let fault = report(&format!("figure,value\n{name},1\n"), &counted).unwrap_err();
            assert!(fault.contains(&format!("no figure `{name}`")), "{fault}");
        }
    }
}
