//! JSON, written by hand: a text that grows, and strings that are escaped.

use std::fmt::{Display, Write};

/// A JSON text in the making. Whoever writes puts the names and the values in turn; commas are
/// set here.
#[derive(Debug, Default)]
pub struct Json {
    text: String,
    /// Whether a value stands before the place where the next one goes.
    follows: bool,
}

impl Json {
    /// Begins an empty text.
    pub fn new() -> Self {
        Self::default()
    }

    /// The finished text.
    pub fn into_text(self) -> String {
        self.text
    }

    /// Writes `{`, what the closure writes, and `}`.
    pub fn object(&mut self, members: impl FnOnce(&mut Self)) {
        self.nest('{', members, '}');
    }

    /// Writes `[`, what the closure writes, and `]`.
    pub fn array(&mut self, items: impl FnOnce(&mut Self)) {
        self.nest('[', items, ']');
    }

    /// Writes the name of a member; its value is written next.
    pub fn name(&mut self, name: &str) -> &mut Self {
        self.string(name);
        self.text.push(':');
        self.follows = false;
        self
    }

    /// Writes a string.
    pub fn string(&mut self, value: &str) {
        self.comma();
        self.text.push('"');
        for character in value.chars() {
            self.escape(character);
        }
        self.text.push('"');
    }

    /// Writes a whole number.
    pub fn number(&mut self, value: impl Into<i64>) {
        self.plain(value.into());
    }

    /// Writes a count, which no sheet makes larger than a number holds exactly.
    pub fn count(&mut self, value: usize) {
        self.plain(value);
    }

    /// Writes `true` or `false`.
    pub fn truth(&mut self, value: bool) {
        self.plain(value);
    }

    /// Writes `null`.
    pub fn null(&mut self) {
        self.plain("null");
    }

    fn plain(&mut self, value: impl Display) {
        self.comma();
        write!(self.text, "{value}").expect("a string takes what is written");
    }

    fn nest(&mut self, open: char, inside: impl FnOnce(&mut Self), close: char) {
        self.comma();
        self.text.push(open);
        self.follows = false;
        inside(self);
        self.text.push(close);
        self.follows = true;
    }

    fn comma(&mut self) {
        if self.follows {
            self.text.push(',');
        }
        self.follows = true;
    }

    /// Besides what JSON asks for, `<`, `>` and `&` are escaped, and the two line ends that old
    /// scripts trip over, so that the text does no harm wherever it is put.
    fn escape(&mut self, character: char) {
        match character {
            '"' => self.text.push_str("\\\""),
            '\\' => self.text.push_str("\\\\"),
            '\n' => self.text.push_str("\\n"),
            '\0'..='\u{1f}' | '<' | '>' | '&' | '\u{7f}' | '\u{2028}' | '\u{2029}' => {
                let code = u32::from(character);
                write!(self.text, "\\u{code:04x}").expect("a string takes what is written");
            }
            _ => self.text.push(character),
        }
    }
}

#[cfg(test)]
mod tests {
    use super::*;

    fn written(write: impl FnOnce(&mut Json)) -> String {
        let mut json = Json::new();
        write(&mut json);
        json.into_text()
    }

    #[test]
    fn commas_stand_between_values_only() {
        let text = written(|json| {
            json.object(|json| {
                json.name("a").array(|json| {
                    json.number(-1);
                    json.array(|_| ());
                    json.object(|_| ());
                    json.count(2);
                });
                json.name("b").null();
                json.name("c").truth(true);
                json.name("d").string("e");
            });
        });
        assert_eq!(text, r#"{"a":[-1,[],{},2],"b":null,"c":true,"d":"e"}"#);
    }

    #[test]
    fn strings_are_escaped() {
        let text = written(|json| json.string("\"\\\n\r\t\0<&>\u{7f}\u{2028}é💡"));
        let expected = "\"\\\"\\\\\\n\\u000d\\u0009\\u0000\\u003c\\u0026\\u003e\\u007f\\u2028é💡\"";
        assert_eq!(text, expected);
    }

    #[test]
    fn no_control_character_is_left() {
        for code in 0..0x20 {
            let character = char::from(code);
            let text = written(|json| json.string(&character.to_string()));
            assert!(text.chars().all(|character| character >= ' '));
        }
    }
}
