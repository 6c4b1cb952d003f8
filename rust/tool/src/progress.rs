//! Telling on standard error how far something has come that takes more than a second.

use std::time::{Duration, Instant};

/// How long nothing is said, and how often then.
const PATIENCE: Duration = Duration::from_secs(1);

/// Something that is done step by step.
#[derive(Debug)]
pub struct Progress {
    what: &'static str,
    steps: usize,
    done: usize,
    said: Instant,
}

impl Progress {
    /// Something of so many steps that begins now.
    pub fn new(what: &'static str, steps: usize) -> Self {
        Self {
            what,
            steps,
            done: 0,
            said: Instant::now(),
        }
    }

    /// One step more is done.
    pub fn step(&mut self) {
        self.done += 1;
        if let Some(words) = self.words() {
            eprintln!("rollmap: {words}");
        }
    }

    /// What is said now, where it is time for that.
    fn words(&mut self) -> Option<String> {
        if self.said.elapsed() < PATIENCE {
            return None;
        }
        self.said = Instant::now();
        Some(format!("{}: {} of {}", self.what, self.done, self.steps))
    }
}

#[cfg(test)]
mod tests {
    use super::*;

    #[test]
    fn nothing_is_said_in_the_first_second_and_then_once_a_second() {
        let mut progress = Progress::new("taking out", 9);
        progress.step();
        assert_eq!(progress.words(), None);
        progress.said -= PATIENCE;
        assert_eq!(progress.words().as_deref(), Some("taking out: 1 of 9"));
        assert_eq!(progress.words(), None);
    }
}
