//! XML text and attribute values, escaped.

use std::fmt::{self, Display, Formatter, Write};

/// A text as it stands between tags or, in double quotes, as an attribute's value.
#[derive(Clone, Copy, Debug)]
pub struct Escaped<'a>(pub &'a str);

impl Display for Escaped<'_> {
    fn fmt(&self, out: &mut Formatter<'_>) -> fmt::Result {
        for character in self.0.chars() {
            match character {
                '<' => out.write_str("&lt;")?,
                '>' => out.write_str("&gt;")?,
                '&' => out.write_str("&amp;")?,
                '"' => out.write_str("&quot;")?,
                '\'' => out.write_str("&#39;")?,
                '\t' | '\n' | '\r' => out.write_char(' ')?,
                _ if is_taken(character) => out.write_char(character)?,
                _ => out.write_char(char::REPLACEMENT_CHARACTER)?,
            }
        }
        Ok(())
    }
}

/// Whether XML 1.0 has this character at all, which holds of few controls and not of the two
/// numbers that are no characters.
fn is_taken(character: char) -> bool {
    !matches!(character, '\0'..='\u{1f}' | '\u{7f}'..='\u{9f}' | '\u{fffe}' | '\u{ffff}')
}

#[cfg(test)]
mod tests {
    use super::*;

    #[test]
    fn markup_is_escaped_and_what_xml_lacks_is_replaced() {
        let text = Escaped("a<b>&\"c'\u{1}\u{ffff}\té").to_string();
        assert_eq!(text, "a&lt;b&gt;&amp;&quot;c&#39;\u{fffd}\u{fffd} é");
    }
}
