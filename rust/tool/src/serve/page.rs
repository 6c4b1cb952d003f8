//! The page as it is sent: its template with what is known of the reel filled in.

use rollmap::Group;

use crate::picture::look::{look, number, patterns, Look, INK};
use crate::picture::xml::Escaped;
use crate::{words, Reel};

/// What the template is filled with.
pub struct Page<'a> {
    /// What the reel is called.
    pub name: &'a str,
    /// The reel.
    pub reel: &'a Reel,
    /// Whether a list is held against it, and not its own marks.
    pub has_list: bool,
}

impl Page<'_> {
    /// The page.
    pub fn write(&self) -> String {
        filled(include_str!("page.html"), |key| self.value(key))
    }

    /// What stands in place of `{{key}}`.
    fn value(&self, key: &str) -> String {
        let marks = &self.reel.marks;
        let places = |of: fn(&rollmap::Mark) -> i16| {
            let (low, high) = (marks.iter().map(of).min(), marks.iter().map(of).max());
            format!("{} {}", low.unwrap_or(0), high.unwrap_or(0))
        };
        match key {
            "name" => Escaped(self.name).to_string(),
            "marks" => words::marks(marks.len()),
            "last" => marks.len().saturating_sub(1).to_string(),
            "shape" => words::shape(self.reel.shape).to_owned(),
            "edition" => words::edition(self.reel.edition).to_owned(),
            "listed" => self.has_list.to_string(),
            "held" => self.held().to_owned(),
            "across" => places(|mark| mark.x),
            "down" => places(|mark| mark.y),
            "patterns" => patterns(),
            "ink" => INK.to_owned(),
            "groups" => Group::ALL.map(group_row).concat(),
            _ => String::new(),
        }
    }

    fn held(&self) -> &'static str {
        match self.has_list {
            true => "The list, held against the reel",
            false => "The reel's own marks",
        }
    }
}

/// The row of a group in the table of counts, with its look for the script.
fn group_row(group: Group) -> String {
    let Look {
        name,
        letter,
        fill,
        pattern,
        glyph,
        ..
    } = look(group);
    let number = number(group);
    format!(
        "<tr data-letter=\"{letter}\" data-fill=\"{fill}\" data-glyph=\"{glyph}\" \
         data-name=\"{name}\"><th scope=\"row\"><svg width=\"26\" height=\"18\" role=\"img\" \
         aria-label=\"{pattern}\"><rect x=\".5\" y=\".5\" width=\"25\" height=\"17\" \
         fill=\"url(#fill-{number})\" stroke=\"{INK}\"/></svg> <b>{letter}</b> {name}</th>\
         <td></td><td></td><td></td><td></td><td></td></tr>\n"
    )
}

/// A template with each `{{key}}` replaced, in one pass, so that no value is looked into.
fn filled(template: &str, value: impl Fn(&str) -> String) -> String {
    let mut pieces = template.split("{{");
    let mut page = pieces.next().unwrap_or_default().to_owned();
    for piece in pieces {
        match piece.split_once("}}") {
            Some((key, rest)) => {
                page.push_str(&value(key));
                page.push_str(rest);
            }
            None => page.push_str(piece),
        }
    }
    page
}

#[cfg(test)]
mod tests {
    use super::*;

    #[test]
    fn values_are_not_looked_into() {
        let page = filled("a {{x}} b {{y}} c", |key| format!("<{key} {{{{x}}}}>"));
        assert_eq!(page, "a <x {{x}}> b <y {{x}}> c");
    }

    #[test]
    fn every_key_of_the_template_has_a_value() {
        let reel = Reel::open(rollmap::assemble_to_vec(&[(rollmap::Code::Marks, &[])]).unwrap());
        let page = Page {
            name: "a<b",
            reel: &reel.unwrap(),
            has_list: false,
        };
        for piece in include_str!("page.html").split("{{").skip(1) {
            let (key, _) = piece.split_once("}}").unwrap();
            assert_ne!(page.value(key), "", "{key}");
        }
        assert!(page.write().contains("a&lt;b"));
        assert!(!page.write().contains("{{"));
    }
}
