//! Reading the words that a command is called with.

use std::ffi::OsString;

use rollmap::{Refusal, Turn, View, Zoom};

use crate::Trouble;

/// The options that a command takes. Each begins with two dashes.
#[derive(Clone, Copy, Debug)]
pub struct Options {
    /// Those that a value follows, as the next word or behind `=`.
    pub values: &'static [&'static str],
    /// Those that stand alone.
    pub flags: &'static [&'static str],
}

/// The options by which a command is told what it looks at: see [`Args::view`].
pub const VIEW_OPTIONS: [&str; 4] = ["--view", "--zoom", "--stop", "--turn"];

/// The words of a command, told apart: options with their values, flags, and the others.
#[derive(Debug)]
pub struct Args {
    values: Vec<(&'static str, String)>,
    flags: Vec<&'static str>,
    others: std::vec::IntoIter<String>,
}

impl Args {
    /// Tells the words of a command apart. Behind `--` no word is an option; a single `-` is
    /// none either.
    ///
    /// # Errors
    ///
    /// [`Trouble::Usage`] where an option is none of these, is there twice, or lacks its
    /// value, or where a word is no text.
    pub fn read(words: &[OsString], options: Options) -> Result<Self, Trouble> {
        let texts: Result<Vec<String>, Trouble> = words.iter().map(text).collect();
        let mut texts = texts?.into_iter();
        let (mut values, mut flags, mut others) = (Vec::new(), Vec::new(), Vec::new());
        while let Some(word) = texts.next() {
            match word.split_once('=') {
                _ if word == "--" => others.extend(texts.by_ref()),
                _ if !word.starts_with('-') || word == "-" => others.push(word),
                Some((name, value)) => {
                    values.push((known(name, options.values)?, value.to_owned()))
                }
                None if options.flags.contains(&word.as_str()) => {
                    flags.push(known(&word, options.flags)?);
                }
                None => {
                    let name = known(&word, options.values)?;
                    let value = texts.next();
                    values.push((
                        name,
                        value.ok_or_else(|| usage(format!("{name} lacks its value")))?,
                    ));
                }
            }
        }
        let names: Vec<_> = values
            .iter()
            .map(|(name, _)| *name)
            .chain(flags.iter().copied())
            .collect();
        match twice(&names) {
            Some(name) => Err(usage(format!("{name} is there twice"))),
            None => Ok(Self {
                values,
                flags,
                others: others.into_iter(),
            }),
        }
    }

    /// Whether a flag is there.
    pub fn flag(&self, name: &str) -> bool {
        self.flags.contains(&name)
    }

    /// The value of an option, where it is there.
    pub fn value(&self, name: &str) -> Option<&str> {
        let mut values = self.values.iter();
        values
            .find(|(option, _)| *option == name)
            .map(|(_, value)| value.as_str())
    }

    /// The value of an option, read as `what`.
    ///
    /// # Errors
    ///
    /// [`Trouble::Usage`] where it cannot be read so.
    pub fn parsed<T: std::str::FromStr>(
        &self,
        name: &str,
        what: &str,
    ) -> Result<Option<T>, Trouble> {
        self.value(name)
            .map(|value| parsed(value, name, what))
            .transpose()
    }

    /// The next word that is no option, which the command calls `name`.
    ///
    /// # Errors
    ///
    /// [`Trouble::Usage`] where there is none.
    pub fn word(&mut self, name: &str) -> Result<String, Trouble> {
        self.others
            .next()
            .ok_or_else(|| usage(format!("{name} is missing")))
    }

    /// The words that are left.
    pub fn rest(&mut self) -> Vec<String> {
        self.others.by_ref().collect()
    }

    /// Sees that no word is left.
    ///
    /// # Errors
    ///
    /// [`Trouble::Usage`] where one is.
    pub fn end(&mut self) -> Result<(), Trouble> {
        match self.others.next() {
            Some(word) => Err(usage(format!("one word too many: {word}"))),
            None => Ok(()),
        }
    }

    /// What `--view x0,x1,y0,y1`, `--zoom Z` or `--stop S`, and `--turn T` name: without
    /// them all places, stop 0, no turn.
    ///
    /// # Errors
    ///
    /// [`Trouble::Usage`] where one of them cannot be read, or both zooms are there; question
    /// [20](Refusal::Window) for another turn than 0 to 3. All else a view is asked by the
    /// library.
    pub fn view(&self) -> Result<View, Trouble> {
        let whole = View::whole(self.zoom()?.unwrap_or(Zoom::Stop(0)));
        let quarters: u32 = self
            .parsed("--turn", "a number of quarter turns")?
            .unwrap_or(0);
        let turn = u8::try_from(quarters).ok().and_then(Turn::from_quarters);
        let turned = View {
            turn: turn.ok_or(Refusal::Window)?,
            ..whole
        };
        match self.value("--view") {
            None => Ok(turned),
            Some(edges) => {
                let [x0, x1, y0, y1] = four(edges)?;
                Ok(View {
                    x0,
                    x1,
                    y0,
                    y1,
                    ..turned
                })
            }
        }
    }

    /// What `--zoom Z` or `--stop S` names, where one of them is there.
    ///
    /// # Errors
    ///
    /// [`Trouble::Usage`] where it is no number, or both are there.
    pub fn zoom(&self) -> Result<Option<Zoom>, Trouble> {
        let wheel = self.value("--zoom").map(wheel).transpose()?;
        let stop: Option<u32> = self.parsed("--stop", "a stop")?;
        match (wheel, stop) {
            (Some(_), Some(_)) => Err(usage("--zoom and --stop are both there".to_owned())),
            (Some(wheel), None) => Ok(Some(Zoom::Wheel(wheel))),
            // No stop above 255 is taken, and neither is 255.
            (None, stop) => Ok(stop.map(|stop| Zoom::Stop(u8::try_from(stop).unwrap_or(u8::MAX)))),
        }
    }
}

/// A word as text.
fn text(word: &OsString) -> Result<String, Trouble> {
    let text = word.to_str().map(str::to_owned);
    text.ok_or_else(|| usage(format!("this word is no text: {}", word.display())))
}

/// The option of that name.
fn known(name: &str, options: &[&'static str]) -> Result<&'static str, Trouble> {
    let found = options.iter().copied().find(|option| *option == name);
    found.ok_or_else(|| usage(format!("there is no option {name}")))
}

/// A name that is there twice.
fn twice(names: &[&'static str]) -> Option<&'static str> {
    let again = |(at, name): (usize, &&'static str)| names[..at].contains(name);
    names
        .iter()
        .enumerate()
        .find(|&it| again(it))
        .map(|(_, name)| *name)
}

/// Reads a value of `name` as `what`.
///
/// # Errors
///
/// [`Trouble::Usage`] where it cannot be read so.
pub fn parsed<T: std::str::FromStr>(value: &str, name: &str, what: &str) -> Result<T, Trouble> {
    let read = value.trim().parse();
    read.map_err(|_| usage(format!("{name}: {what} is wanted, and not {value}")))
}

/// The four edges of a view.
fn four(edges: &str) -> Result<[i32; 4], Trouble> {
    let what = "x0,x1,y0,y1, four whole numbers,";
    let numbers: Result<Vec<i32>, Trouble> = edges
        .split(',')
        .map(|edge| parsed(edge, "--view", what))
        .collect();
    let found = numbers?.try_into();
    found.map_err(|_| usage(format!("--view: {what} is wanted, and not {edges}")))
}

/// A zoom, as a number or as 64ths, `K/64`.
fn wheel(value: &str) -> Result<f32, Trouble> {
    let what = "a zoom, such as 5, 0.25 or 13/64,";
    match value.strip_suffix("/64") {
        None => parsed(value, "--zoom", what),
        Some(k) => parsed::<f32>(k, "--zoom", what).map(|k| k / 64.0),
    }
}

/// Wrong usage, in words.
pub fn usage(what: String) -> Trouble {
    Trouble::Usage(what)
}

#[cfg(test)]
mod tests {
    use super::*;

    const OPTIONS: Options = Options {
        values: &VIEW_OPTIONS,
        flags: &["--flag"],
    };

    fn read(words: &[&str]) -> Result<Args, Trouble> {
        let words: Vec<OsString> = words.iter().map(OsString::from).collect();
        Args::read(&words, OPTIONS)
    }

    fn view_of(words: &[&str]) -> Result<View, String> {
        let view = read(words).and_then(|args| args.view());
        view.map_err(|trouble| trouble.to_string())
    }

    #[test]
    fn words_are_told_apart() {
        let mut args = read(&[
            "a", "--stop", "3", "--flag", "-", "--turn=1", "--", "--flag",
        ])
        .unwrap();
        assert!(args.flag("--flag") && !args.flag("--other"));
        assert_eq!(
            [args.value("--stop"), args.value("--turn")],
            [Some("3"), Some("1")]
        );
        assert_eq!(args.value("--zoom"), None);
        assert_eq!(args.word("FILE").unwrap(), "a");
        assert_eq!(args.rest(), ["-", "--flag"]);
        assert!(args.end().is_ok());
        assert_eq!(
            args.word("FILE").unwrap_err().to_string(),
            "FILE is missing"
        );
    }

    #[test]
    fn wrong_words_are_named() {
        let message = |words: &[&str]| read(words).unwrap_err().to_string();
        assert_eq!(message(&["--nothing"]), "there is no option --nothing");
        assert_eq!(message(&["-x"]), "there is no option -x");
        assert_eq!(message(&["--flag=1"]), "there is no option --flag");
        assert_eq!(message(&["--stop"]), "--stop lacks its value");
        assert_eq!(
            message(&["--stop=1", "--stop", "2"]),
            "--stop is there twice"
        );
        assert_eq!(message(&["--flag", "--flag"]), "--flag is there twice");
        let left = read(&["a"]).unwrap().end().unwrap_err();
        assert_eq!(
            (left.to_string().as_str(), left.status()),
            ("one word too many: a", 2)
        );
    }

    #[test]
    fn a_view_is_all_places_at_stop_0_where_nothing_is_said() {
        assert_eq!(view_of(&[]), Ok(View::whole(Zoom::Stop(0))));
    }

    #[test]
    fn a_view_is_read_from_its_options() {
        let words = ["--view", "-5, 7,0,9", "--zoom", "13/64", "--turn", "3"];
        let view = View {
            x0: -5,
            x1: 7,
            y0: 0,
            y1: 9,
            turn: Turn::ThreeQuarters,
            zoom: Zoom::Wheel(0.203125),
        };
        assert_eq!(view_of(&words), Ok(view));
        assert_eq!(view_of(&["--stop", "16"]), Ok(View::whole(Zoom::Stop(16))));
        assert_eq!(view_of(&["--zoom=2.5"]), Ok(View::whole(Zoom::Wheel(2.5))));
    }

    #[test]
    fn wrong_views_are_named() {
        let both = view_of(&["--stop", "1", "--zoom", "1"]);
        assert_eq!(both, Err("--zoom and --stop are both there".to_owned()));
        for edges in ["1,2,3", "1,2,3,4,5", "a,2,3,4", ""] {
            let message = view_of(&["--view", edges]).unwrap_err();
            assert!(message.starts_with("--view: x0,x1,y0,y1"), "{message}");
        }
        for turn in ["4", "256", "4294967295"] {
            let message = view_of(&["--turn", turn]).unwrap_err();
            assert!(message.starts_with("refused by question 20: "), "{message}");
        }
        assert!(view_of(&["--turn", "-1"]).is_err());
        assert!(view_of(&["--zoom", "wide"]).is_err());
    }

    #[test]
    fn a_stop_that_there_is_not_is_left_to_the_library() {
        for stop in ["17", "255", "256", "4294967295"] {
            let Zoom::Stop(stop) = view_of(&["--stop", stop]).unwrap().zoom else {
                panic!("a stop");
            };
            assert!(stop > 16);
        }
    }
}
