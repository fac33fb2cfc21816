//! Values written as JSON.

use std::fmt;

/// A value.
#[derive(Clone, Debug, PartialEq)]
pub enum Json {
    /// Nothing.
    Null,
    /// Yes or no.
    Bool(bool),
    /// A whole number.
    Number(u64),
    /// A number with decimals, as it is written.
    Decimal(String),
    /// A text.
    Text(String),
    /// Values one after the other.
    List(Vec<Json>),
    /// Values with names.
    Object(Vec<(&'static str, Json)>),
}

impl Json {
    /// A text.
    pub fn text(text: impl fmt::Display) -> Json {
        Json::Text(text.to_string())
    }

    /// A number, if there is one.
    pub fn maybe(number: Option<u64>) -> Json {
        number.map_or(Json::Null, Json::Number)
    }

    /// One text for each.
    pub fn texts<T: fmt::Display>(texts: &[T]) -> Json {
        Json::List(texts.iter().map(Json::text).collect())
    }
}

impl fmt::Display for Json {
    fn fmt(&self, f: &mut fmt::Formatter<'_>) -> fmt::Result {
        match self {
            Json::Null => write!(f, "null"),
            Json::Bool(value) => write!(f, "{value}"),
            Json::Number(value) => write!(f, "{value}"),
            Json::Decimal(text) => write!(f, "{text}"),
            Json::Text(text) => write_text(f, text),
            Json::List(values) => {
                let texts: Vec<String> = values.iter().map(Json::to_string).collect();
                write!(f, "[{}]", texts.join(", "))
            }
            Json::Object(fields) => {
                let texts: Vec<String> = fields
                    .iter()
                    .map(|(name, value)| format!("\"{name}\": {value}"))
                    .collect();
                write!(f, "{{{}}}", texts.join(", "))
            }
        }
    }
}

/// A text between quotes.
fn write_text(f: &mut fmt::Formatter<'_>, text: &str) -> fmt::Result {
    write!(f, "\"")?;
    for letter in text.chars() {
        match letter {
            '"' | '\\' => write!(f, "\\{letter}")?,
            '\0'..=' ' if letter != ' ' => write!(f, "\\u{:04x}", u32::from(letter))?,
            _ => write!(f, "{letter}")?,
        }
    }
    write!(f, "\"")
}

#[cfg(test)]
mod tests {
    use super::*;

    #[test]
    fn values() {
        let value = Json::Object(vec![
            ("a", Json::Number(u64::MAX)),
            ("b", Json::List(vec![Json::Null, Json::Bool(true)])),
            ("c", Json::text("\"x\\\n")),
            ("d", Json::Decimal("0.28".to_string())),
        ]);
        let wanted =
            r#"{"a": 18446744073709551615, "b": [null, true], "c": "\"x\\\u000a", "d": 0.28}"#;
        assert_eq!(value.to_string(), wanted);
    }
}
