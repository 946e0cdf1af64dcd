//! JSON as the program writes it.
use std::fmt;

/// A value.
pub enum Json {
    Null,
    Bool(bool),
    Number(usize),
    Text(String),
    List(Vec<Json>),
    Object(Vec<(&'static str, Json)>),
}

impl Json {
    pub fn text(text: impl Into<String>) -> Json {
        Json::Text(text.into())
    }

    pub fn list(of: impl IntoIterator<Item = Json>) -> Json {
        Json::List(of.into_iter().collect())
    }

    /// The same object with a field more.
    pub fn with(self, key: &'static str, value: impl Into<Json>) -> Json {
        let Json::Object(mut fields) = self else { unreachable!("fields stand in an object") };
        fields.push((key, value.into()));
        Json::Object(fields)
    }
}

/// An object without fields.
pub fn object() -> Json {
    Json::Object(Vec::new())
}

impl From<usize> for Json {
    fn from(n: usize) -> Json {
        Json::Number(n)
    }
}

impl From<u8> for Json {
    fn from(n: u8) -> Json {
        Json::Number(usize::from(n))
    }
}

impl From<u16> for Json {
    fn from(n: u16) -> Json {
        Json::Number(usize::from(n))
    }
}

impl From<bool> for Json {
    fn from(yes: bool) -> Json {
        Json::Bool(yes)
    }
}

impl From<&str> for Json {
    fn from(text: &str) -> Json {
        Json::text(text)
    }
}

impl From<String> for Json {
    fn from(text: String) -> Json {
        Json::Text(text)
    }
}

impl<T: Into<Json>> From<Option<T>> for Json {
    fn from(value: Option<T>) -> Json {
        value.map_or(Json::Null, Into::into)
    }
}

fn quoted(f: &mut fmt::Formatter, text: &str) -> fmt::Result {
    write!(f, "\"")?;
    for c in text.chars() {
        match c {
            '"' => write!(f, "\\\"")?,
            '\\' => write!(f, "\\\\")?,
            '\n' => write!(f, "\\n")?,
            c if c.is_control() => write!(f, "\\u{:04x}", u32::from(c))?,
            c => write!(f, "{c}")?,
        }
    }
    write!(f, "\"")
}

impl fmt::Display for Json {
    fn fmt(&self, f: &mut fmt::Formatter) -> fmt::Result {
        match self {
            Json::Null => write!(f, "null"),
            Json::Bool(yes) => write!(f, "{yes}"),
            Json::Number(n) => write!(f, "{n}"),
            Json::Text(text) => quoted(f, text),
            Json::List(of) => {
                write!(f, "[")?;
                for (i, value) in of.iter().enumerate() {
                    write!(f, "{}{value}", if i > 0 { "," } else { "" })?;
                }
                write!(f, "]")
            }
            Json::Object(fields) => {
                write!(f, "{{")?;
                for (i, (key, value)) in fields.iter().enumerate() {
                    write!(f, "{}\"{key}\":{value}", if i > 0 { "," } else { "" })?;
                }
                write!(f, "}}")
            }
        }
    }
}
