//! Writes a sample sheet of one part to standard output: `sample [MARKS [SEED]]`, 300
//! marks and seed 1 where nothing is said.

use std::env;
use std::error::Error;
use std::io::{stdout, Write};

use oracle::mark::write_marks;
use oracle::sample::{marks, Layout};
use oracle::sheet::join;

fn main() -> Result<(), Box<dyn Error>> {
    let mut words = env::args().skip(1);
    let count = words.next().map_or(Ok(300), |word| word.parse())?;
    let seed = words.next().map_or(Ok(1), |word| word.parse())?;
    let sheet = join(&[&write_marks(&marks(Layout::Clustered, count, seed))]);
    stdout().write_all(&sheet)?;
    Ok(())
}
