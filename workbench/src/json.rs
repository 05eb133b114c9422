//! Values for programs: a small writer of JSON.

use std::fmt;

/// A value.
#[derive(Clone, Debug, PartialEq, Eq)]
pub enum Json {
    Null,
    Bool(bool),
    Number(u64),
    Text(String),
    List(Vec<Json>),
    Object(Fields),
}

/// The fields of an object, in order.
pub type Fields = Vec<(&'static str, Json)>;

impl Json {
    /// A text.
    pub fn text(text: impl Into<String>) -> Json {
        Json::Text(text.into())
    }

    /// A number.
    pub fn number(number: impl Into<u64>) -> Json {
        Json::Number(number.into())
    }

    /// A count.
    pub fn count(number: usize) -> Json {
        Json::Number(number as u64)
    }

    /// Bytes in hexadecimal digits.
    pub fn bytes(bytes: &[u8]) -> Json {
        Json::Text(bytes.iter().map(|byte| format!("{byte:02x}")).collect())
    }

    /// Whether it stands on one line.
    fn is_short(&self) -> bool {
        match self {
            Json::List(items) => items.iter().all(|item| !matches!(item, Json::List(_) | Json::Object(_))),
            Json::Object(fields) => fields.is_empty(),
            _ => true,
        }
    }

    fn write(&self, to: &mut fmt::Formatter, depth: usize) -> fmt::Result {
        match self {
            Json::Null => to.write_str("null"),
            Json::Bool(value) => write!(to, "{value}"),
            Json::Number(value) => write!(to, "{value}"),
            Json::Text(text) => write_text(to, text),
            Json::List(items) => {
                let open = |to: &mut fmt::Formatter, item: &Json| item.write(to, depth + 1);
                write_items(to, ('[', ']'), (depth, self.is_short()), items, open)
            }
            Json::Object(fields) => {
                let open = |to: &mut fmt::Formatter, (name, value): &(&str, Json)| {
                    write!(to, "\"{name}\": ")?;
                    value.write(to, depth + 1)
                };
                write_items(to, ('{', '}'), (depth, self.is_short()), fields, open)
            }
        }
    }
}

/// Items between two marks, on one line or one a line.
fn write_items<T>(
    to: &mut fmt::Formatter,
    (open, close): (char, char),
    (depth, short): (usize, bool),
    items: &[T],
    item: impl Fn(&mut fmt::Formatter, &T) -> fmt::Result,
) -> fmt::Result {
    write!(to, "{open}")?;
    for (at, each) in items.iter().enumerate() {
        match (short, at) {
            (true, 0) => {}
            (true, _) => write!(to, ", ")?,
            (false, 0) => write!(to, "\n{}", "  ".repeat(depth + 1))?,
            (false, _) => write!(to, ",\n{}", "  ".repeat(depth + 1))?,
        }
        item(to, each)?;
    }
    if !short && !items.is_empty() {
        write!(to, "\n{}", "  ".repeat(depth))?;
    }
    write!(to, "{close}")
}

fn write_text(to: &mut fmt::Formatter, text: &str) -> fmt::Result {
    to.write_str("\"")?;
    for c in text.chars() {
        match c {
            '"' => to.write_str("\\\"")?,
            '\\' => to.write_str("\\\\")?,
            '\n' => to.write_str("\\n")?,
            c if c < ' ' || c == '\u{7f}' => write!(to, "\\u{:04x}", c as u32)?,
            c => write!(to, "{c}")?,
        }
    }
    to.write_str("\"")
}

impl fmt::Display for Json {
    fn fmt(&self, to: &mut fmt::Formatter) -> fmt::Result {
        self.write(to, 0)
    }
}

#[cfg(test)]
mod tests {
    use super::*;

    #[test]
    fn values_are_written() {
        let value = Json::Object(vec![
            ("name", Json::text("a \"b\"\n\u{1}")),
            ("list", Json::List(vec![Json::count(1), Json::Null, Json::Bool(true)])),
            ("empty", Json::Object(vec![])),
            ("deep", Json::List(vec![Json::Object(vec![("x", Json::bytes(&[0x10, 2]))])])),
        ]);
        let text =
            "{\n  \"name\": \"a \\\"b\\\"\\n\\u0001\",\n  \"list\": [1, null, true],\n  \"empty\": {},\n  \
                    \"deep\": [\n    {\n      \"x\": \"1002\"\n    }\n  ]\n}";
        assert_eq!(value.to_string(), text);
    }
}
