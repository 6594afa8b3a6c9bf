//! Figures of two sources, beside each other.
use crate::figures::Figure;
use std::collections::HashMap;

/// A figure of both sources.
#[derive(Debug)]
pub struct Row {
    /// The figure's name.
    pub name: String,
    /// Its value by the first source.
    pub first: String,
    /// Its value by the second, where that gives one.
    pub second: Option<String>,
    /// Whether the two are equal.
    pub equal: bool,
}

/// The value of a figure that is not given.
fn absent(name: &str) -> &'static str {
    match name {
        "worst at end" => "none",
        "readiness at end" => "no impact",
        _ => "0",
    }
}

impl Row {
    /// The value by the second source, or that of a figure which is not given.
    pub fn second_or_absent(&self) -> &str {
        self.second.as_deref().unwrap_or(absent(&self.name))
    }

    /// How much more the second source has, where the two are not equal.
    pub fn difference(&self) -> Option<String> {
        let numbers = self.first.parse::<i128>().ok().zip(self.second_or_absent().parse::<i128>().ok());
        let more = numbers.and_then(|(first, second)| second.checked_sub(first)).filter(|more| *more != 0);
        (!self.equal).then(|| more.map_or("differs".to_string(), |more| format!("{more:+}")))
    }
}

/// A row for each of the names.
pub fn rows<'a>(names: impl IntoIterator<Item = &'a String>, first: &[Figure], second: &[Figure]) -> Vec<Row> {
    let (first, second) = (values(first), values(second));
    let row = |name: &String| {
        let second = second.get(name).map(|value| value.to_string());
        let first = first.get(name).map_or(absent(name), |value| value).to_string();
        let equal = first == second.as_deref().unwrap_or(absent(name));
        Row { name: name.clone(), first, second, equal }
    };
    names.into_iter().map(row).collect()
}

fn values(figures: &[Figure]) -> HashMap<&String, &str> {
    figures.iter().map(|(name, value)| (name, value.as_str())).collect()
}

/// The names of both sources in their order: what the second has alone stands behind what is before it there.
pub fn merged<'a>(first: &'a [Figure], second: &'a [Figure]) -> Vec<&'a String> {
    let shared = values(first);
    let (mut before, mut behind) = (None, HashMap::<_, Vec<_>>::new());
    for (name, _) in second {
        if shared.contains_key(name) {
            before = Some(name);
        } else {
            behind.entry(before).or_default().push(name);
        }
    }
    let places = std::iter::once(None).chain(first.iter().map(|(name, _)| Some(name)));
    places.flat_map(|name| name.into_iter().chain(behind.remove(&name).unwrap_or_default())).collect()
}

#[cfg(test)]
mod tests {
    use super::{merged, rows};
    use crate::figures::Figure;

    fn figures(named: &[(&str, &str)]) -> Vec<Figure> {
        named.iter().map(|(name, value)| (name.to_string(), value.to_string())).collect()
    }

    #[test]
    fn names_of_both_keep_their_order() {
        let first = figures(&[("a", "1"), ("b", "1"), ("c", "1")]);
        let second = figures(&[("x", "1"), ("a", "1"), ("y", "1"), ("z", "1"), ("c", "1"), ("u", "1")]);
        assert_eq!(merged(&first, &second), ["x", "a", "y", "z", "b", "c", "u"]);
        assert_eq!(merged(&first, &[]), ["a", "b", "c"]);
        assert_eq!(merged(&[], &first), ["a", "b", "c"]);
    }

    #[test]
    fn a_row_tells_how_much_more_the_second_has() {
        let first = figures(&[("a", "3"), ("b", "3"), ("worst at end", "none"), ("readiness at end", "degraded"), ("c", "03")]);
        let second = figures(&[("a", "1"), ("b", "3"), ("c", "3"), ("d", "2")]);
        let names = merged(&first, &second);
        let told: Vec<_> = rows(names, &first, &second).iter().map(|row| (row.name.clone(), row.difference())).collect();
        let expected = [
            ("a", Some("-2")),
            ("b", None),
            ("worst at end", None),
            ("readiness at end", Some("differs")),
            ("c", Some("differs")),
            ("d", Some("+2")),
        ];
        assert_eq!(told, expected.map(|(name, difference)| (name.to_string(), difference.map(str::to_string))));
    }
}
