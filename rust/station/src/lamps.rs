//! The lamps of a panel: severities by name, and how many alarms stand behind each.
use crate::table::{column, numbers, Cell, Table};
use crate::text::severity_named;
use alarm_register::{ListActive, Operation, Panel, Severity, State};

/// The mask that people name: severities with commas between them, `all` or `none`.
pub fn mask_named(names: &str) -> Result<u8, &'static str> {
    match names {
        "all" => Ok(Panel::MASK_ALL),
        "none" => Ok(0),
        names => names.split(',').try_fold(0, |mask, name| Ok(mask | Panel::bit(severity_named(name.trim().as_bytes())?))),
    }
    .map_err(|_: &str| "--mask takes severities with commas between them, as critical,major, or all, or none")
}

/// The lamps of a panel, from critical down, and of the answer to an active list (operation 8) how many alarms set each flag.
pub fn table(panel: Panel, active: &[u8]) -> Table {
    let said = |is: bool, yes: &str, no: &str| Cell::of(if is { yes } else { no });
    let row = |severity: &Severity| {
        vec![
            Cell::of(severity),
            said(panel.is_waiting(*severity), "lit", "dark"),
            said(panel.is_flagged(*severity), "set", "not set"),
            said(panel.lets_through(*severity), "lets through", "holds back"),
            Cell::Number(raised_or_updated(active, *severity)),
        ]
    };
    Table {
        name: "lamps",
        title: "LAMPS".to_string(),
        columns: vec![column("severity"), column("lamp"), column("flag"), column("mask"), numbers("raised_or_updated")],
        rows: Severity::ALL.iter().rev().map(row).collect(),
    }
}

/// How many alarms of an active list have this severity, and are raised or updated.
fn raised_or_updated(active: &[u8], severity: Severity) -> u64 {
    let alarms = ListActive::read_answer(active).into_iter().flatten();
    alarms.filter(|alarm| alarm.severity == severity && matches!(alarm.state, State::Raised | State::Updated)).count() as u64
}

#[cfg(test)]
mod tests {
    use super::mask_named;

    #[test]
    fn masks_are_named_by_severities() {
        let named =
            [("all", 0x3f), ("none", 0), ("cleared", 1), ("critical", 0x20), ("critical,major", 0x30), ("minor, minor", 8)];
        for (names, mask) in named {
            assert_eq!(mask_named(names), Ok(mask), "{names}");
        }
        let every = "critical,major,minor,warning,indeterminate,cleared";
        assert_eq!(mask_named(every), mask_named("all"));
        for names in ["", ",", "critical,", "Critical", "critical major", "63", "all,major", "none,none"] {
            assert!(mask_named(names).is_err_and(|said| said.starts_with("--mask takes severities with commas")), "{names}");
        }
    }
}
