//! What the tests of the tool share: reels drawn at random with the oracle's answers, folders
//! of their own, and calls of the command. Each test file uses some of it.

#![allow(dead_code)]

use std::fs;
use std::path::{Path, PathBuf};
use std::process::{Command, Output};
use std::time::{Duration, Instant};

use oracle::contents::join_parts;
use oracle::mark::{write_marks, Mark};
use oracle::popup::write_popups;
use oracle::process::schedule_in_rank_order;
use oracle::rank::Edition;
use oracle::record::{removals, Record};
use oracle::sample::{marks, popups, Generator, Layout, Popups};
use oracle::shape::Shape;
use oracle::view::{map_and_count, Edges, Window};
use oracle::zoom::lives;
use rollmap::{Turn, View, Zoom, FARTHEST_EDGE};
use rollmap_tool::hold::{Fate, Listed};
use rollmap_tool::Reel;

// ---- reels

/// A reel that is drawn at random, and its records by the oracle.
pub struct Drawn {
    pub marks: Vec<Mark>,
    pub popups: Option<Vec<u32>>,
    pub edition: Edition,
    pub shape: Shape,
    pub records: Vec<Record>,
}

impl Drawn {
    /// Some reel of n marks.
    pub fn new(generator: &mut Generator, n: usize) -> Self {
        let layout = generator.choose(&Layout::ALL);
        let mut marks = marks(layout, n, generator.draw());
        // Tags are few, so that some are alike and some are 0.
        for mark in &mut marks {
            mark.tag = generator.choose(&[0, 1, 2, mark.tag % 64, mark.tag]);
        }
        let how = Popups::ALL[generator.below(8) as usize];
        let drawn = popups(how, &marks, generator.draw());
        let mut reel = Self {
            marks,
            popups: generator.choose(&[true, false]).then_some(drawn),
            edition: generator.choose(&Edition::ALL),
            shape: generator.choose(&Shape::ALL),
            records: Vec::new(),
        };
        reel.records = schedule_in_rank_order(reel.reel());
        reel
    }

    /// The reel as the oracle has it.
    pub fn reel(&self) -> oracle::reel::Reel<'_> {
        let reel = self.edition.reel(&self.marks).with_shape(self.shape);
        match &self.popups {
            Some(popups) => reel.with_popups(popups),
            None => reel,
        }
    }

    /// The sheet without a schedule. The first edition and disks are not named.
    pub fn sheet(&self) -> Vec<u8> {
        let marks = write_marks(&self.marks);
        let edition = (self.edition == Edition::Second).then(|| self.edition.write().to_vec());
        let popups = self.popups.as_deref().map(write_popups);
        let shape = (self.shape == Shape::Square).then(|| self.shape.write().to_vec());
        let parts = [(1, Some(marks)), (4, edition), (5, popups), (7, shape)];
        let present: Vec<(u16, &[u8])> = parts
            .iter()
            .filter_map(|(code, body)| Some((*code, body.as_deref()?)))
            .collect();
        join_parts(&present)
    }

    /// The reel as the tool opens it.
    pub fn open(&self) -> Reel {
        Reel::open(self.sheet()).expect("the sheet is right")
    }

    /// The popup of a mark.
    pub fn popup(&self, m: usize) -> u32 {
        self.reel().popup(m)
    }

    /// The marks as a list has them, in their order, with popups or without.
    pub fn listed(&self, with_popups: bool) -> Vec<Listed> {
        let listed = |(m, mark): (usize, &Mark)| Listed {
            line: m + 2,
            mark: bound(mark),
            popup: with_popups.then(|| self.popup(m)),
        };
        self.marks.iter().enumerate().map(listed).collect()
    }

    /// What the oracle says of a view.
    pub fn seen(&self, view: View) -> Seen<'_> {
        let k = rollmap_tool::words::in_64ths(view.zoom);
        let list = removals(&self.records);
        let alive = |m: usize| lives(self.popup(m), list[m], k);
        let (map, _) = map_and_count(self.reel(), &list, window(view), k);
        Seen {
            drawn: self,
            k,
            lives: (0..self.marks.len()).map(alive).collect(),
            map,
        }
    }
}

/// What the oracle says of a view of a reel.
pub struct Seen<'a> {
    drawn: &'a Drawn,
    k: u32,
    lives: Vec<bool>,
    map: Vec<u8>,
}

impl Seen<'_> {
    /// Sees that a fate is what the oracle says of mark m.
    pub fn assert_fate(&self, m: usize, fate: Fate) {
        let shown = oracle::map::is_set(&self.map, m);
        let there = self.drawn.popup(m) <= self.k;
        match fate {
            Fate::Shown => assert!(shown),
            Fate::Outside => assert!(self.lives[m] && !shown),
            Fate::NotYet => assert!(!self.lives[m] && !there),
            Fate::Hidden { by, through, now } => {
                assert!(!self.lives[m] && there);
                let mut chain = std::iter::successors(self.eliminator(m), |&m| self.eliminator(m));
                assert_eq!(chain.clone().next(), Some(by));
                assert!(chain.by_ref().take(through).all(|m| !self.lives[m]));
                assert_eq!(chain.next(), Some(now));
                assert!(self.lives[now]);
            }
            other => panic!("mark {m} is on the reel: {other:?}"),
        }
    }

    /// The mark that removes mark m.
    fn eliminator(&self, m: usize) -> Option<usize> {
        let record = self.drawn.records[m];
        (record != Record::NEVER).then_some(record.eliminator.into())
    }
}

/// A mark of the oracle as the bindings have it.
pub fn bound(mark: &Mark) -> rollmap::Mark {
    rollmap::Mark::from_bytes(mark.write())
}

// ---- views

/// The window of a view as the oracle has it.
fn window(view: View) -> Window {
    let View { x0, x1, y0, y1, .. } = view;
    Edges { x0, x1, y0, y1 }.of_turned(view.turn.quarters())
}

/// Some view of a reel that is taken.
pub fn some_view(generator: &mut Generator, drawn: &Drawn) -> View {
    let zoom = match generator.below(3) {
        0 => Zoom::Stop(generator.below(17) as u8),
        _ => wheel(1 + (generator.below(65_536) >> generator.below(16))),
    };
    let turn = match drawn.shape {
        Shape::Disk => generator.choose(&Turn::ALL),
        Shape::Square => Turn::None,
    };
    let whole = View {
        turn,
        ..View::whole(zoom)
    };
    if drawn.marks.is_empty() || generator.below(4) == 0 {
        return whole;
    }
    let mut place = || {
        let mark = generator.choose(&drawn.marks);
        turn.turned(mark.x, mark.y)
    };
    let (a, b) = (place(), place());
    let edge = |edge: i32| edge.clamp(-FARTHEST_EDGE, FARTHEST_EDGE);
    View {
        x0: edge(a.0.min(b.0)),
        x1: edge(a.0.max(b.0)),
        y0: edge(a.1.min(b.1)),
        y1: edge(a.1.max(b.1)),
        ..whole
    }
}

/// The zoom of which 64 times is k.
pub fn wheel(k: u32) -> Zoom {
    Zoom::Wheel(k as f32 / 64.0)
}

// ---- time

/// The least time of a few tries, so that other work on the machine matters less.
pub fn least_time(mut work: impl FnMut()) -> Duration {
    let time = |()| {
        let start = Instant::now();
        work();
        start.elapsed()
    };
    [(); 3].map(time).into_iter().min().unwrap()
}

/// Well under a second.
pub const LIMIT: Duration = Duration::from_millis(500);

// ---- the command

/// A folder of a test's own, in which the command is called.
pub struct Folder(PathBuf);

impl Folder {
    /// An empty folder of that name.
    pub fn new(name: &str) -> Self {
        // Other crates of the workspace have files in the same place.
        let own = Path::new(env!("CARGO_TARGET_TMPDIR")).join("tool");
        let folder = own.join(name);
        let _ = fs::remove_dir_all(&folder);
        fs::create_dir_all(&folder).expect("the folder can be made");
        Self(folder)
    }

    /// Where it is.
    pub fn path(&self) -> &Path {
        &self.0
    }

    /// Writes a file.
    pub fn write(&self, name: &str, bytes: impl AsRef<[u8]>) {
        fs::write(self.0.join(name), bytes).expect("the file can be written");
    }

    /// Reads a file.
    pub fn read(&self, name: &str) -> Vec<u8> {
        fs::read(self.0.join(name)).expect("the file can be read")
    }

    /// The names of its files.
    pub fn names(&self) -> Vec<String> {
        let entries = fs::read_dir(&self.0).expect("the folder can be read");
        let name = |entry: std::io::Result<fs::DirEntry>| entry.unwrap().file_name();
        let mut names: Vec<_> = entries
            .map(name)
            .map(|name| name.into_string().unwrap())
            .collect();
        names.sort();
        names
    }

    /// Calls the command with these words, which stand apart by spaces.
    pub fn call(&self, words: &str) -> Called {
        let mut command = Command::new(env!("CARGO_BIN_EXE_rollmap"));
        let words = words.split_whitespace();
        Called::of(command.args(words).current_dir(&self.0).output())
    }
}

/// What came of a call.
#[derive(Debug)]
pub struct Called {
    pub status: i32,
    pub out: String,
    pub err: String,
}

impl Called {
    fn of(output: std::io::Result<Output>) -> Self {
        let output = output.expect("the command runs");
        let text = |bytes| String::from_utf8(bytes).expect("it prints text");
        Self {
            status: output.status.code().expect("it ends by itself"),
            out: text(output.stdout),
            err: text(output.stderr),
        }
    }

    /// Sees that it ended with this status, and that it complained exactly where it should.
    pub fn ended(self, status: i32) -> Self {
        assert_eq!(self.status, status, "{self:?}");
        assert_eq!(self.err.is_empty(), status < 2, "{self:?}");
        self
    }

    /// The last line that it printed.
    pub fn last(&self) -> &str {
        self.out.lines().last().unwrap_or_default()
    }
}
