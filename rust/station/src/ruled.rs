//! Tables with rules, as a page of a book.

/// The most characters of a line, where the columns can be made that narrow.
pub const PAGE_WIDTH: usize = 99;
/// A column is narrowed to this where nothing else makes a row fit; names are then broken anywhere.
const NARROWEST: usize = 12;
/// Signs behind which a name is broken.
const BREAKS: [char; 7] = [' ', ',', '.', ':', '_', '-', '('];

/// How the cells of a column are set.
#[derive(Clone, Copy, Debug, PartialEq, Eq)]
pub enum Setting {
    /// Words: to the left; broken where they are long.
    Words,
    /// Numbers: to the right.
    Numbers,
    /// Times: to the left, and never broken.
    Times,
}

/// A column of a page.
pub struct PageColumn {
    /// How its cells are set.
    pub setting: Setting,
    /// The lines of its heading.
    pub heading: Vec<String>,
    /// The lines of its cells, one cell for each row.
    pub cells: Vec<Vec<String>>,
}

impl PageColumn {
    fn longest(&self, length: impl Fn(&str) -> usize) -> usize {
        self.cells.iter().chain([&self.heading]).flatten().map(|line| length(line)).max().unwrap_or(0)
    }

    fn width(&self) -> usize {
        self.longest(|line| line.chars().count())
    }

    /// The width that it can be narrowed to by breaking lines behind these signs.
    fn narrowest(&self, breaks: &[char]) -> usize {
        let piece = |piece: &str| piece.trim_end().chars().count();
        match self.setting {
            Setting::Times => self.width(),
            _ => self.longest(|line| line.split_inclusive(breaks).map(piece).max().unwrap_or(0)),
        }
    }
}

/// A page's columns under a title.
pub fn ruled(title: &str, columns: &[PageColumn]) -> String {
    let widths = widths(columns);
    let rule = |joint: &str| widths.iter().map(|width| "─".repeat(width + 2)).collect::<Vec<_>>().join(joint) + "\n";
    let row = |cell: &dyn Fn(&PageColumn) -> Vec<String>| {
        let cells: Vec<Vec<String>> = columns.iter().zip(&widths).map(|(column, width)| fitted(cell(column), *width)).collect();
        ruled_row(columns, &widths, &cells)
    };
    let rows = columns.first().map_or(0, |column| column.cells.len());
    let body: String = (0..rows).map(|place| row(&|column| column.cells[place].clone())).collect();
    let heading = row(&|column| column.heading.clone());
    format!("{title}\n{}{heading}{}{body}{}", rule("┬"), rule("┼"), rule("┴"))
}

/// Widths with which a row fits the page. Sentences are broken first, then names behind their signs, then anything.
fn widths(columns: &[PageColumn]) -> Vec<usize> {
    let mut widths: Vec<usize> = columns.iter().map(PageColumn::width).collect();
    for breaks in [&[' '], &BREAKS[..]] {
        widths = narrowed(widths, columns.iter().map(|column| column.narrowest(breaks)).collect());
    }
    let least = |column: &PageColumn| if column.setting == Setting::Times { column.width() } else { NARROWEST };
    narrowed(widths, columns.iter().map(least).collect())
}

/// Widths narrowed until a row fits the page, the widest first and none below its narrowest.
fn narrowed(mut widths: Vec<usize>, narrowest: Vec<usize>) -> Vec<usize> {
    while widths.iter().map(|width| width + 3).sum::<usize>() > PAGE_WIDTH + 1 {
        let wide = widths.iter_mut().zip(&narrowest).filter(|(width, narrowest)| **width > **narrowest);
        match wide.map(|(width, _)| width).max() {
            Some(widest) => *widest -= 1,
            None => break,
        }
    }
    widths
}

/// A row with a bar between its columns, on as many lines as its longest cell has.
fn ruled_row(columns: &[PageColumn], widths: &[usize], cells: &[Vec<String>]) -> String {
    let padded = |line: usize, place: usize| {
        let (cell, width) = (cells[place].get(line).map_or("", String::as_str), widths[place]);
        match columns[place].setting {
            Setting::Numbers => format!(" {cell:>width$} "),
            _ => format!(" {cell:<width$} "),
        }
    };
    let line = |line: usize| {
        (0..cells.len()).map(|place| padded(line, place)).collect::<Vec<_>>().join("│").trim_end().to_string() + "\n"
    };
    (0..cells.iter().map(Vec::len).max().unwrap_or(0)).map(line).collect()
}

/// A cell's lines in lines of a width.
fn fitted(lines: Vec<String>, width: usize) -> Vec<String> {
    lines.iter().flat_map(|line| wrapped(line, width)).collect()
}

/// A line in lines of a width, broken at a blank or behind a sign where there is one.
pub fn wrapped(line: &str, width: usize) -> Vec<String> {
    let mut lines = Vec::new();
    let mut left: Vec<char> = line.chars().collect();
    while left.len() > width {
        let last = |passes: &dyn Fn(usize) -> bool| (1..=width).rev().find(|at| passes(*at));
        let blank = last(&|at| left[at] == ' ').filter(|at| *at > width / 3);
        let sign = blank.or_else(|| last(&|at| BREAKS.contains(&left[at - 1])));
        let rest = left.split_off(sign.unwrap_or(width));
        lines.push(left.iter().collect::<String>().trim_end().to_string());
        left = rest.into_iter().skip_while(|c| *c == ' ').collect();
    }
    lines.push(left.iter().collect());
    lines
}

#[cfg(test)]
mod tests {
    use super::{wrapped, PageColumn, Setting, PAGE_WIDTH};

    #[test]
    fn sentences_are_broken_before_names() {
        let column = |setting, line: &str| PageColumn { setting, heading: vec!["h".into()], cells: vec![vec![line.into()]] };
        let name = "interface(tower-7,sheave-train-up)";
        let columns = [
            column(Setting::Times, "14 Mar 2026"),
            column(Setting::Words, name),
            column(Setting::Words, &"words ".repeat(20)),
            column(Setting::Numbers, "7"),
        ];
        let page = super::ruled("T", &columns);
        assert!(page.contains(&format!(" 14 Mar 2026 │ {name} │ words")), "{page}");
        assert!(page.lines().all(|line| line.chars().count() <= PAGE_WIDTH), "{page}");
        assert!(page.lines().any(|line| line.ends_with("│ 7")), "{page}");
    }

    /// A page of texts, each with a number beside it.
    fn page(texts: &[&str]) -> String {
        let cells = |lines: &[&str]| lines.iter().map(|line| vec![line.to_string()]).collect();
        super::ruled(
            "T",
            &[
                PageColumn { setting: Setting::Words, heading: vec!["text".into()], cells: cells(texts) },
                PageColumn { setting: Setting::Numbers, heading: vec!["n".into()], cells: cells(&vec!["1"; texts.len()]) },
            ],
        )
    }

    #[test]
    fn columns_are_measured_in_characters() {
        let rows = " text   │ n\n────────┼───\n gelé à │ 1\n ℃ → 🚡  │ 1\n 停止     │ 1\n";
        assert_eq!(page(&["gelé à", "℃ → 🚡", "停止"]), format!("T\n────────┬───\n{rows}────────┴───\n"));
        let broken = page(&[&"é".repeat(120), &"🚡".repeat(64)]);
        let lines: Vec<usize> = broken.lines().map(|line| line.matches(['é', '🚡']).count()).collect();
        assert_eq!(lines, [0, 0, 0, 0, 93, 27, 64, 0], "{broken}");
    }

    #[test]
    fn names_are_broken_behind_signs() {
        assert_eq!(wrapped("other:ropeway.sheave-wear", 15), ["other:ropeway.", "sheave-wear"]);
        assert_eq!(wrapped("a word too long", 6), ["a word", "too", "long"]);
        assert_eq!(wrapped("abcdefgh", 3), ["abc", "def", "gh"]);
        assert_eq!(wrapped("", 3), [""]);
    }
}
