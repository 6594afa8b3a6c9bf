//! Tables: ruled for people, as CSV or JSON for scripts.
use crate::ruled::{ruled, PageColumn, Setting};
use crate::text::quoted_for_page;

/// Where a page shows a column. CSV and JSON have all columns.
#[derive(Clone, Copy, Debug, PartialEq, Eq)]
enum OnPage {
    /// As a column of its own.
    Alone(Setting),
    /// In the column before it, a line lower.
    Below,
    /// The same, with its name; for what few rows have.
    BelowNamed,
    /// A line lower in the column of that name, with its own: for what came later, and stands last for scripts.
    BelowNamedAt(&'static str),
    /// Not at all.
    Nowhere,
}

/// A column of a table.
#[derive(Clone, Copy, Debug)]
pub struct Column {
    name: &'static str,
    on_page: OnPage,
}

/// A column of words.
pub const fn column(name: &'static str) -> Column {
    Column { name, on_page: OnPage::Alone(Setting::Words) }
}

/// A column of numbers.
pub const fn numbers(name: &'static str) -> Column {
    Column { name, on_page: OnPage::Alone(Setting::Numbers) }
}

/// A column of clock times.
pub const fn clock_times(name: &'static str) -> Column {
    Column { name, on_page: OnPage::Alone(Setting::Times) }
}

/// A column that a page shows below the one before it.
pub const fn below(name: &'static str) -> Column {
    Column { name, on_page: OnPage::Below }
}

/// A column that a page shows below the one before it, with its name.
pub const fn below_named(name: &'static str) -> Column {
    Column { name, on_page: OnPage::BelowNamed }
}

/// A column that a page shows below another one, with its name.
pub const fn below_named_at(name: &'static str, above: &'static str) -> Column {
    Column { name, on_page: OnPage::BelowNamedAt(above) }
}

/// A column for scripts alone.
pub const fn off_page(name: &'static str) -> Column {
    Column { name, on_page: OnPage::Nowhere }
}

/// What a row holds in a column.
#[derive(Clone, Debug, PartialEq, Eq)]
pub enum Cell {
    /// Words.
    Text(String),
    /// A number.
    Number(u64),
    /// Words for scripts, and the lines in which a page shows them.
    InLines { plain: String, on_page: Vec<String> },
    /// Nothing.
    None,
}

impl Cell {
    /// The words of something that people read.
    pub fn of(text: impl ToString) -> Cell {
        Cell::Text(text.to_string())
    }

    /// The words of something that may be absent.
    pub fn maybe(text: Option<impl ToString>) -> Cell {
        text.map_or(Cell::None, Cell::of)
    }

    fn plain(&self) -> String {
        match self {
            Cell::Text(text) | Cell::InLines { plain: text, .. } => text.clone(),
            Cell::Number(number) => number.to_string(),
            Cell::None => String::new(),
        }
    }

    /// The lines in which a page shows it.
    fn lines(&self) -> Vec<String> {
        match self {
            Cell::InLines { on_page, .. } => on_page.clone(),
            cell => Some(quoted_for_page(&cell.plain())).filter(|line| !line.is_empty()).into_iter().collect(),
        }
    }

    fn json(&self) -> String {
        match self {
            Cell::Text(text) | Cell::InLines { plain: text, .. } => json_string(text),
            Cell::Number(number) => number.to_string(),
            Cell::None => "null".to_string(),
        }
    }
}

/// A table with a name for scripts and a title for people.
#[derive(Debug)]
pub struct Table {
    /// The name that `--only` takes.
    pub name: &'static str,
    /// The heading.
    pub title: String,
    /// The columns.
    pub columns: Vec<Column>,
    /// The rows, each with a cell for every column.
    pub rows: Vec<Vec<Cell>>,
}

impl Table {
    /// The columns that a page shows, as places of the table's columns: each with those below it. Where no row holds
    /// anything they are left out.
    fn places(&self) -> Vec<(Setting, Vec<usize>)> {
        let filled = |place: &usize| self.rows.iter().any(|row| !row[*place].plain().is_empty());
        let mut shown: Vec<(Setting, Vec<usize>)> = Vec::new();
        for (place, column) in self.columns.iter().enumerate() {
            match column.on_page {
                OnPage::Alone(setting) => shown.push((setting, vec![place])),
                OnPage::Below | OnPage::BelowNamed => {
                    if let Some((_, above)) = shown.last_mut() {
                        above.push(place);
                    }
                }
                OnPage::BelowNamedAt(above) => {
                    if let Some((_, above)) = shown.iter_mut().find(|(_, places)| self.columns[places[0]].name == above) {
                        above.push(place);
                    }
                }
                OnPage::Nowhere => {}
            }
        }
        shown.iter_mut().for_each(|(_, places)| places.retain(filled));
        shown.retain(|(_, places)| !places.is_empty());
        shown
    }

    /// A column of a page, which shows the table's columns at these places.
    fn page_column(&self, setting: Setting, places: &[usize]) -> PageColumn {
        let name = |place: &usize| self.columns[*place].name.replace('_', " ");
        let named = |place: &usize| matches!(self.columns[*place].on_page, OnPage::BelowNamed | OnPage::BelowNamedAt(_));
        let heading = places.iter().filter(|place| !named(place)).map(name).collect();
        let lines = |row: &Vec<Cell>, place: &usize| -> Vec<String> {
            let label = if named(place) { name(place) + ": " } else { String::new() };
            row[*place].lines().into_iter().map(|line| format!("{label}{line}")).collect()
        };
        let cell = |row: &Vec<Cell>| places.iter().flat_map(|place| lines(row, place)).collect();
        PageColumn { setting, heading, cells: self.rows.iter().map(cell).collect() }
    }

    /// The table with rules, as a page of a book.
    pub fn ruled(&self) -> String {
        let columns: Vec<PageColumn> =
            self.places().into_iter().map(|(setting, places)| self.page_column(setting, &places)).collect();
        if columns.is_empty() {
            return format!("{}\n  none\n", self.title);
        }
        ruled(&self.title, &columns)
    }

    /// The table as CSV by RFC 4180, with a line of names; lines end with a line feed.
    pub fn csv(&self) -> String {
        let names = self.columns.iter().map(|column| column.name.to_string()).collect();
        let rows = self.rows.iter().map(|row| row.iter().map(Cell::plain).collect());
        std::iter::once(names).chain(rows).map(|row: Vec<String>| csv_row(&row)).collect()
    }

    /// The table as a JSON array with an object for each row.
    pub fn json(&self) -> String {
        let row = |row: &Vec<Cell>| {
            let fields: Vec<String> = self
                .columns
                .iter()
                .zip(row)
                .map(|(column, cell)| format!("{}: {}", json_string(column.name), cell.json()))
                .collect();
            format!("\n    {{{}}}", fields.join(", "))
        };
        let rows: Vec<String> = self.rows.iter().map(row).collect();
        format!("[{}{}]", rows.join(","), if rows.is_empty() { "" } else { "\n  " })
    }
}

fn csv_row(cells: &[String]) -> String {
    let quoted = |cell: &String| {
        if cell.contains([',', '"', '\n', '\r']) {
            format!("\"{}\"", cell.replace('"', "\"\""))
        } else {
            cell.clone()
        }
    };
    cells.iter().map(quoted).collect::<Vec<_>>().join(",") + "\n"
}

/// A JSON string.
pub fn json_string(text: &str) -> String {
    let escaped: String = text
        .chars()
        .map(|c| match c {
            '"' => "\\\"".to_string(),
            '\\' => "\\\\".to_string(),
            c if u32::from(c) < 0x20 || c == '\u{7f}' => format!("\\u{:04x}", u32::from(c)),
            c => c.to_string(),
        })
        .collect();
    format!("\"{escaped}\"")
}

/// Tables and single values as one JSON object; values are JSON already.
pub fn json_object(values: &[(&str, String)]) -> String {
    let fields: Vec<String> = values.iter().map(|(name, value)| format!("  {}: {value}", json_string(name))).collect();
    format!("{{\n{}\n}}\n", fields.join(",\n"))
}
