//! What the commands that read and write sheets have in common.

use std::path::Path;

use rollmap::{Code, Refusal};

use crate::args::{usage, Args};
use crate::{files, Trouble};

/// The option that says where a file is written.
pub const OUTPUT: &str = "--output";

/// A file that a command reads.
pub struct Input {
    /// Its name as it was called.
    pub path: String,
    /// What it holds.
    pub bytes: Vec<u8>,
}

impl Input {
    /// Reads the file that the next word names.
    pub fn read(args: &mut Args, name: &str) -> Result<Self, Trouble> {
        let path = args.word(name)?;
        let bytes = files::read(&path)?;
        Ok(Self { path, bytes })
    }

    /// Trouble with this file.
    pub fn trouble(&self, trouble: impl Into<Trouble>) -> Trouble {
        trouble.into().about(files::name(&self.path))
    }

    /// What the library answers of this file.
    pub fn answer<T>(&self, answer: Result<T, Refusal>) -> Result<T, Trouble> {
        answer.map_err(|refusal| self.trouble(refusal))
    }

    /// The name of the file that takes the place of this one.
    pub fn output(&self, args: &Args) -> String {
        args.value(OUTPUT).unwrap_or(&self.path).to_owned()
    }

    /// The name of the file that is made from this one: with another ending, where no other
    /// is named. What comes from standard input goes to standard output.
    pub fn output_with(&self, args: &Args, ending: &str) -> Result<String, Trouble> {
        if let Some(path) = args.value(OUTPUT) {
            return Ok(path.to_owned());
        }
        if self.path == files::STANDARD {
            return Ok(files::STANDARD.to_owned());
        }
        let path = Path::new(&self.path).with_extension(ending);
        if path == Path::new(&self.path) {
            let what = format!("the ending is .{ending} already: name the new file by {OUTPUT}");
            return Err(self.trouble(usage(what)));
        }
        Ok(path.display().to_string())
    }
}

/// Writes a file, and says so where that is not standard output.
pub fn save(path: &str, bytes: &[u8], words: &str) -> Result<(), Trouble> {
    files::write(path, bytes)?;
    match path {
        files::STANDARD => Ok(()),
        _ => files::print(&format!("{path}: {words}\n")),
    }
}

/// The options by which a new sheet is given an edition and a shape.
pub const CHOICES: [&str; 2] = ["--edition", "--shape"];

/// Parts 4 and 7 as the options name them. Which bytes there are, the library is asked.
pub fn choices(args: &Args) -> Result<Vec<(Code, [u8; 1])>, Trouble> {
    let named = |option: &str| match args.value(option) {
        Some("disk") => Ok(Some(1)),
        Some("square") => Ok(Some(2)),
        _ => args.parsed(option, "1 or 2"),
    };
    let edition = args.parsed("--edition", "1 or 2")?;
    let shape = named("--shape")?;
    let parts = [(Code::Edition, edition), (Code::Shape, shape)];
    let present = parts
        .into_iter()
        .filter_map(|(code, byte)| Some((code, [byte?])));
    Ok(present.collect())
}
