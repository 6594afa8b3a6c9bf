//! The tables of a page, asked of a register.
use crate::replay::{Machine, Often, Tally};
use crate::table::{below, below_named, below_named_at, clock_times, column, numbers, off_page, Cell, Column, Table};
use crate::text::Zone;
use alarm_register::{
    code_name, Alarm, AuditEvent, CountActive, ListActive, ListHistory, Operation, Refusal, State, Summarise, Summary, TakeAudit,
    Time,
};

/// The tables of a page. Everything but the answers is asked of the register itself, by operations 8 to 12.
pub fn of(machine: &Machine, tally: &Tally, zone: Zone) -> Result<Vec<Table>, Refusal> {
    let active = machine.look(&ListActive { severity: None }.call())?;
    let history = machine.look(&ListHistory::default().call())?;
    let audit = machine.look(&TakeAudit { at_most: u16::MAX }.call())?;
    let counts = machine.look(&CountActive.call())?;
    let summary = machine.look(&Summarise.call())?;
    Ok(vec![
        alarms(
            "active",
            "ACTIVE ALARMS",
            [clock_times("raised_at"), off_page("updated_at")],
            zone,
            ListActive::read_answer(&active).into_iter().flatten(),
        ),
        alarms(
            "history",
            "HISTORY",
            [off_page("raised_at"), clock_times("updated_at")],
            zone,
            ListHistory::read_answer(&history).into_iter().flatten(),
        ),
        events(tally, zone, TakeAudit::read_answer(&audit).into_iter().flatten()),
        counted(&counts),
        answers(tally),
        summed(Summarise::read_answer(&summary), suppressed(&active)),
    ])
}

/// A table of alarms. A page tells of active alarms when they were raised, and of history when each change was.
fn alarms<'a>(
    name: &'static str,
    title: &str,
    change: [Column; 2],
    zone: Zone,
    alarms: impl Iterator<Item = Alarm<'a>>,
) -> Table {
    let [raised_at, updated_at] = change;
    let columns = vec![
        raised_at,
        updated_at,
        off_page("cleared_at"),
        column("severity"),
        below("state"),
        column("id"),
        off_page("type"),
        column("cause"),
        below("object"),
        column("text"),
        below_named("tenant"),
        below_named("slice"),
        below_named("region"),
        off_page("details"),
        off_page("key"),
        numbers("times"),
        off_page("end"),
    ];
    let rows: Vec<Vec<Cell>> = alarms.map(|one| alarm(one, zone)).collect();
    Table { name, title: format!("{title}: {}, oldest first", rows.len()), columns, rows }
}

fn alarm(alarm: Alarm<'_>, zone: Zone) -> Vec<Cell> {
    vec![
        at(alarm.raised_at, zone),
        at(alarm.updated_at, zone),
        alarm.cleared_at.map_or(Cell::None, |time| at(time, zone)),
        Cell::of(alarm.severity),
        state(&alarm, zone),
        Cell::of(alarm.id),
        Cell::of(alarm.alarm_type),
        Cell::of(alarm.cause),
        Cell::of(alarm.object),
        Cell::of(alarm.text),
        Cell::maybe(alarm.tenant),
        Cell::maybe(alarm.slice),
        Cell::maybe(alarm.region),
        Cell::maybe(alarm.details.map(hexadecimal)),
        Cell::of(alarm.key),
        Cell::Number(alarm.raises.into()),
        alarm.end.map_or(Cell::None, |time| at(time, zone)),
    ]
}

fn at(time: Time, zone: Zone) -> Cell {
    Cell::InLines { plain: zone.show(time), on_page: zone.show_in_lines(time).to_vec() }
}

/// The state, on a page with the end of a suppression: `suppressed`, `until 16:00:00` and `14 Mar 2026`.
fn state(alarm: &Alarm<'_>, zone: Zone) -> Cell {
    let Some(end) = alarm.end else { return Cell::of(alarm.state) };
    let [date, clock] = zone.show_in_lines(end);
    Cell::InLines { plain: alarm.state.to_string(), on_page: vec![alarm.state.to_string(), format!("until {clock}"), date] }
}

fn hexadecimal(bytes: &[u8]) -> String {
    bytes.iter().map(|byte| format!("{byte:02x}")).collect()
}

/// The audit trail: events that calls took out, then those that the register holds.
fn events<'a>(tally: &Tally, zone: Zone, held: impl Iterator<Item = AuditEvent<'a>>) -> Table {
    let columns = vec![
        clock_times("occurred_at"),
        column("action"),
        below("outcome"),
        column("id"),
        off_page("type"),
        off_page("cause"),
        column("principal"),
        below_named("tenant"),
        column("reason"),
        off_page("scope"),
        below_named("correlation"),
        numbers("taken_by_call"),
    ];
    let taken =
        tally.taken.iter().filter_map(|(place, record)| Some(event(AuditEvent::read(record)?, zone, Cell::Number(*place))));
    let rows: Vec<Vec<Cell>> = taken.chain(held.map(|held| event(held, zone, Cell::None))).collect();
    Table { name: "audit", title: format!("AUDIT TRAIL: {}, oldest first", rows.len()), columns, rows }
}

fn event(event: AuditEvent<'_>, zone: Zone, taken: Cell) -> Vec<Cell> {
    vec![
        at(event.occurred_at, zone),
        Cell::of(event.action),
        Cell::of(event.outcome),
        Cell::of(event.id),
        Cell::of(event.alarm_type),
        Cell::of(event.cause),
        Cell::of(event.principal),
        Cell::maybe(event.tenant),
        Cell::of(event.reason),
        Cell::of(event.scope),
        Cell::maybe(event.correlation),
        taken,
    ]
}

fn counted(answer: &[u8]) -> Table {
    let counts = CountActive::read_answer(answer).into_iter().flatten();
    let row = |count: alarm_register::Count<'_>| {
        vec![Cell::of(count.severity), Cell::Number(count.alarms.into()), Cell::of(count.cause)]
    };
    Table {
        name: "counts",
        title: "ACTIVE BY SEVERITY AND CAUSE".to_string(),
        columns: vec![column("severity"), numbers("alarms"), column("cause")],
        rows: counts.map(row).collect(),
    }
}

fn answers(tally: &Tally) -> Table {
    let row = |number: u32, said: String, often: &Often| {
        vec![Cell::Number(often.calls), Cell::Number(number.into()), Cell::of(said), Cell::Number(often.first)]
    };
    let answer = |(code, often): (&u8, &Often)| row((*code).into(), code_name(*code).unwrap_or("unknown").to_string(), often);
    let refusal =
        |(number, often): (&u32, &Often)| row(*number, format!("refused: {}", Refusal::from_number(*number).sentence()), often);
    let rows = tally.codes.iter().map(answer).chain(tally.refused.iter().map(refusal)).collect();
    let columns = vec![numbers("calls"), numbers("number"), column("answer"), numbers("first_call")];
    Table { name: "answers", title: "WHAT THE CALLS WERE ANSWERED".to_string(), columns, rows }
}

/// How many alarms of an active list are suppressed: those that a summary's worst severity and readiness leave aside.
pub fn suppressed(active: &[u8]) -> u64 {
    let alarms = ListActive::read_answer(active).into_iter().flatten();
    alarms.filter(|alarm| alarm.state == State::Suppressed).count() as u64
}

/// The headline, and beside it how many alarms it leaves aside.
fn summed(summary: Option<Summary>, suppressed: u64) -> Table {
    let columns = vec![
        numbers("active"),
        column("worst"),
        column("readiness"),
        numbers("audit_stored"),
        numbers("audit_lost"),
        below_named_at("suppressed", "active"),
    ];
    let row = |summary: Summary| {
        vec![
            Cell::Number(summary.active),
            Cell::of(summary.worst.map_or("none", |worst| worst.name())),
            Cell::of(summary.readiness),
            Cell::Number(summary.successes),
            Cell::Number(summary.failures),
            Cell::Number(suppressed),
        ]
    };
    let title = "SUMMARY: worst and readiness of the active alarms that are not suppressed".to_string();
    Table { name: "summary", title, columns, rows: summary.map(row).into_iter().collect() }
}

#[cfg(test)]
mod tests {
    use super::{alarms, clock_times, off_page, Zone};
    use crate::ruled::PAGE_WIDTH;
    use alarm_register::{Alarm, Key, Object, Severity, State, Time};

    fn page_of(alarm: Alarm<'_>, zone: &str) -> super::Table {
        let zone = Zone::of(zone).unwrap();
        alarms("active", "T", [clock_times("raised_at"), off_page("updated_at")], zone, [alarm].into_iter())
    }

    #[test]
    fn the_end_of_a_suppression_stands_below_its_state() {
        let alarm = Alarm {
            key: Key([0; 16]),
            severity: Severity::Minor,
            state: State::Suppressed,
            raised_at: Time(0),
            updated_at: Time(0),
            cleared_at: None,
            id: "a",
            alarm_type: "t",
            cause: "lease-lost",
            object: Object::Tenant { tenant: "a" },
            tenant: None,
            slice: None,
            region: None,
            text: "",
            details: None,
            raises: 1,
            end: Some(Time(1_773_500_400_000_000_000)),
        };
        let (timed, untimed) = (page_of(alarm, "+01:00"), page_of(Alarm { end: None, ..alarm }, "+01:00"));
        let lines: Vec<String> =
            timed.ruled().lines().skip(5).map(|line| line.split('│').nth(1).unwrap_or("").trim().to_string()).collect();
        assert_eq!(lines[..4], ["minor", "suppressed", "until 16:00:00", "14 Mar 2026"]);
        assert!(!untimed.ruled().contains("until"));
        assert!(timed.csv().contains(",minor,suppressed,a,t,") && timed.csv().ends_with(",1,2026-03-14 16:00:00\n"));
        assert!(untimed.csv().contains(",minor,suppressed,a,t,") && untimed.csv().ends_with(",1,\n"));
    }

    #[test]
    fn the_largest_number_of_raises_fits_the_page_beside_the_longest_fields() {
        // the text is longer than a raise may bring it now: it was stored before
        let (long, text) = ("x".repeat(128), "Q".repeat(256));
        let alarm = Alarm {
            key: Key([255; 16]),
            severity: Severity::Indeterminate,
            state: State::Suppressed,
            raised_at: Time(i64::MAX),
            updated_at: Time(i64::MAX),
            cleared_at: None,
            id: &long[..64],
            alarm_type: &long[..64],
            cause: &long[..96],
            object: Object::DataPlaneQueue { nf: &long[..64], interface: &long[..64], queue: 65_535 },
            tenant: Some(&long[..64]),
            slice: Some(&long[..64]),
            region: Some(&long),
            text: &text,
            details: None,
            raises: u32::MAX,
            end: Some(Time(i64::MAX)),
        };
        let table = page_of(alarm, "UTC");
        let page = table.ruled();
        assert!(page.lines().all(|line| line.chars().count() <= PAGE_WIDTH), "{page}");
        assert_eq!(page.lines().filter(|line| line.ends_with("│ 4294967295")).count(), 1, "{page}");
        assert_eq!(page.matches('Q').count(), 256, "{page}");
        assert!(
            table.csv().starts_with("raised_at,") && table.csv().ends_with(",4294967295,2262-04-11 23:47:16.854775807\n"),
            "{}",
            table.csv()
        );
    }
}
