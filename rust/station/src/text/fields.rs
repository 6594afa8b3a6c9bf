//! The fields of a line: `name=value`, where a value is a word, a quoted string, or a form such as `interface(drive,fan)`.
use super::cursor::{Cursor, Fault};
use super::print::visible;

/// A value and the column that it starts in.
#[derive(Clone, Debug)]
pub struct Value {
    pub column: usize,
    /// The word or the string, or the form's name.
    pub bytes: Vec<u8>,
    /// The column in which each of these bytes is written.
    columns: Vec<usize>,
    /// What stands between the form's brackets.
    pub parts: Option<Vec<Value>>,
}

impl Value {
    /// The string, no longer than its limit.
    pub fn string(self, name: &str, longest: usize) -> Result<String, Fault> {
        let column = self.column;
        let bytes = self.plain(name, longest)?;
        String::from_utf8(bytes).map_err(|_| Fault::new(column, &format!("{name} is not UTF-8; only details hold any bytes")))
    }

    /// The string, with no more characters than these. They are counted before its bytes: characters are what people see.
    pub fn text(self, name: &str, longest: usize, most: usize) -> Result<String, Fault> {
        let text = std::str::from_utf8(&self.bytes).unwrap_or_default();
        let Some((at, first)) = text.char_indices().nth(most) else { return self.string(name, longest) };
        let named = format!("`{}`, U+{:04X}", visible(first), u32::from(first));
        let count = text.chars().count();
        let message = format!("{name} has {count} characters; at most {most} are allowed, and the first too many is {named}");
        Err(Fault::new(self.columns[at], &message))
    }

    /// The bytes of a word or a quoted string, no longer than their limit.
    pub fn plain(self, name: &str, longest: usize) -> Result<Vec<u8>, Fault> {
        if self.parts.is_some() {
            return Err(Fault::new(self.column, &format!("{name} is a string; put it in quotes if it holds brackets")));
        }
        if self.bytes.len() > longest {
            let length = self.bytes.len();
            return Err(Fault::new(self.column, &format!("{name} is {length} bytes long; at most {longest} are allowed")));
        }
        Ok(self.bytes)
    }
}

/// The fields of a line that were not used yet.
#[derive(Debug)]
pub struct Fields {
    fields: Vec<(String, usize, Value)>,
    end: usize,
}

/// Reads fields up to the line's end.
pub fn read(line: &mut Cursor<'_>) -> Result<Fields, Fault> {
    let mut fields: Vec<(String, usize, Value)> = Vec::new();
    line.blanks();
    while !line.at_end() {
        let start = line.clone();
        let name = line.take_while(|c| c.is_ascii_alphanumeric() || c == '-');
        if name.is_empty() || !line.skip('=') {
            return Err(start.fault(&format!("a field is written name=value; there is `{}`", start.peek_word())));
        }
        if fields.iter().any(|(earlier, _, _)| earlier == name) {
            return Err(start.fault(&format!("{name} is given twice")));
        }
        fields.push((name.to_string(), start.column(), value(line)?));
        if !matches!(line.peek(), None | Some(' ' | '\t')) {
            return Err(line.fault("a blank was expected behind the value"));
        }
        line.blanks();
    }
    Ok(Fields { fields, end: line.column() })
}

fn value(line: &mut Cursor<'_>) -> Result<Value, Fault> {
    let column = line.column();
    if line.peek() == Some('"') {
        return quoted(line);
    }
    let word = line.take_while(|c| !matches!(c, ' ' | '\t' | '"' | '(' | ')' | ','));
    if word.is_empty() {
        return Err(line.fault("a value was expected; an empty one is written \"\""));
    }
    let parts = if line.skip('(') { Some(parts(line)?) } else { None };
    let columns = word.chars().zip(column..).flat_map(|(c, column)| vec![column; c.len_utf8()]).collect();
    Ok(Value { column, bytes: word.as_bytes().to_vec(), columns, parts })
}

fn parts(line: &mut Cursor<'_>) -> Result<Vec<Value>, Fault> {
    let mut parts = Vec::new();
    loop {
        line.blanks();
        parts.push(value(line)?);
        line.blanks();
        if line.skip(')') {
            return Ok(parts);
        }
        if !line.skip(',') {
            return Err(line.fault("a comma or a closing bracket was expected"));
        }
    }
}

fn quoted(line: &mut Cursor<'_>) -> Result<Value, Fault> {
    let open = line.fault("this quote is not closed on its line");
    let column = line.column();
    let (mut bytes, mut columns) = (Vec::new(), Vec::new());
    line.skip('"');
    loop {
        let place = line.clone();
        match line.next().ok_or_else(|| open.clone())? {
            '"' => return Ok(Value { column, bytes, columns, parts: None }),
            '\\' => bytes.extend(escape(line).ok_or_else(|| {
                place.fault("behind a backslash stand \", \\, n, r, t, u{20ac} for a character or xff for a byte")
            })?),
            plain => bytes.extend(plain.to_string().bytes()),
        }
        columns.resize(bytes.len(), place.column());
    }
}

/// The bytes of what stands behind a backslash.
fn escape(line: &mut Cursor<'_>) -> Option<Vec<u8>> {
    let byte = match line.next()? {
        '"' => b'"',
        '\\' => b'\\',
        'n' => b'\n',
        'r' => b'\r',
        't' => b'\t',
        'x' => {
            let digits: String = [line.next()?, line.next()?].iter().collect();
            u8::from_str_radix(&digits, 16).ok()?
        }
        'u' => {
            line.skip('{').then_some(())?;
            let number = u32::from_str_radix(line.take_while(|c| c.is_ascii_hexdigit()), 16).ok()?;
            line.skip('}').then_some(())?;
            return char::from_u32(number).map(|c| c.to_string().into_bytes());
        }
        _ => return None,
    };
    Some(vec![byte])
}

impl Fields {
    /// Takes a field that may be left out.
    pub fn maybe(&mut self, name: &str) -> Option<Value> {
        let place = self.fields.iter().position(|(given, _, _)| given == name)?;
        Some(self.fields.remove(place).2)
    }

    /// Takes a field that must be there.
    pub fn need(&mut self, name: &str) -> Result<Value, Fault> {
        self.maybe(name).ok_or_else(|| Fault::new(self.end, &format!("{name}= is missing")))
    }

    /// Takes a string that must be there.
    pub fn string(&mut self, name: &str, longest: usize) -> Result<String, Fault> {
        self.need(name)?.string(name, longest)
    }

    /// Takes a string that may be left out.
    pub fn option(&mut self, name: &str, longest: usize) -> Result<Option<String>, Fault> {
        self.maybe(name).map(|value| value.string(name, longest)).transpose()
    }

    /// Takes a yes or a no that must be there.
    pub fn flag(&mut self, name: &str) -> Result<bool, Fault> {
        let value = self.need(name)?;
        match &value.bytes[..] {
            b"yes" => Ok(true),
            b"no" => Ok(false),
            _ => Err(Fault::new(value.column, &format!("{name} is yes or no"))),
        }
    }

    /// Takes a number that must be there.
    pub fn number<N: std::str::FromStr>(&mut self, name: &str) -> Result<N, Fault> {
        let value = self.need(name)?;
        let text = String::from_utf8_lossy(&value.bytes);
        text.parse().map_err(|_| Fault::new(value.column, &format!("{name} is a number, and not `{text}`")))
    }

    /// Sees that every field was used.
    pub fn none_left(&self, what: &str) -> Result<(), Fault> {
        match self.fields.first() {
            None => Ok(()),
            Some((name, column, _)) => Err(Fault::new(*column, &format!("{what} has no field {name}; see docs/CALLS.md"))),
        }
    }
}
