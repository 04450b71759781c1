//! Lines of JSON.

use std::fmt::{Display, Write};

/// A JSON object on one line.
#[derive(Clone)]
pub struct Object(String);

impl Object {
    /// The object of an event.
    pub fn event(event: &str) -> Object {
        Object(String::new()).text("event", event)
    }

    pub fn text(self, key: &str, value: &str) -> Object {
        self.value(key, quoted(value))
    }

    /// A number or a truth value.
    pub fn number(self, key: &str, value: impl Display) -> Object {
        self.value(key, value)
    }

    pub fn null(self, key: &str) -> Object {
        self.value(key, "null")
    }

    /// A value, or null.
    pub fn maybe_text(self, key: &str, value: Option<&str>) -> Object {
        match value {
            Some(value) => self.text(key, value),
            None => self.null(key),
        }
    }

    fn value(mut self, key: &str, value: impl Display) -> Object {
        let comma = if self.0.is_empty() { "" } else { "," };
        // Writing to a String doesn't fail.
        let _ = write!(self.0, "{comma}{}:{value}", quoted(key));
        self
    }

    pub fn line(&self) -> String {
        format!("{{{}}}", self.0)
    }
}

fn quoted(text: &str) -> String {
    let mut quoted = String::from("\"");
    for character in text.chars() {
        match character {
            '"' | '\\' => quoted.extend(['\\', character]),
            character if character.is_control() => quoted += &format!("\\u{:04x}", u32::from(character)),
            character => quoted.push(character),
        }
    }
    quoted + "\""
}

#[cfg(test)]
mod tests {
    use super::*;

    #[test]
    fn an_object_is_one_line_of_json() {
        let object = Object::event("column").text("name", "a\"\\\n\u{7f}ä").number("bytes", 8).null("why");
        assert_eq!(object.line(), r#"{"event":"column","name":"a\"\\\u000a\u007fä","bytes":8,"why":null}"#);
    }
}
