//! What stands under each path: the page, and what it asks for. Every answer about marks is the
//! library's, by the modules that the commands use.

use rollmap::{Group, View};

use super::json::Json;
use super::page::Page;
use super::query;
use super::reply::{kind, Reply};
use super::request::Request;
use crate::answer::{fate_words, Answer};
use crate::args::{usage, Args, Options, VIEW_OPTIONS};
use crate::hold::{fates, hold, Fate, Held, Listed, Row};
use crate::picture::scene::{zoom_words, Radii, Scene, Tally};
use crate::picture::svg::looked_at;
use crate::picture::{self, look, svg, Size};
use crate::table::Table;
use crate::why::{chain, why};
use crate::{words, Reel, Trouble};

/// The fields of the query that name a view, and further ones.
macro_rules! fields {
    ($($further:literal),*) => {
        &[
            VIEW_OPTIONS[0],
            VIEW_OPTIONS[1],
            VIEW_OPTIONS[2],
            VIEW_OPTIONS[3],
            $($further),*
        ]
    };
}

/// What the paths take.
const VIEW_FIELDS: Options = Options {
    values: fields!(),
    flags: &["--hidden"],
};
const PICTURE_FIELDS: Options = Options {
    values: fields!("--size"),
    flags: &["--hidden"],
};
const WHY_FIELDS: Options = Options {
    values: fields!("--mark"),
    flags: &[],
};
const HOLD_FIELDS: Options = Options {
    values: fields!("--fate", "--from"),
    flags: &[],
};

/// The rows of the table that are sent at once.
pub const MOST_ROWS: usize = 50;

/// The sentences about a mark that are sent at most: a chain may be as long as the sheet.
const MOST_SENTENCES: usize = 120;

/// A reel, the list that is held against it, and the page that shows them.
#[derive(Debug)]
pub struct Site {
    reel: Reel,
    name: String,
    radii: Radii,
    list: Vec<Listed>,
    has_list: bool,
    page: String,
}

impl Site {
    /// The site of a reel that is called `name`. Without a list the reel's own marks are the
    /// list.
    ///
    /// # Errors
    ///
    /// None are known.
    pub fn new(reel: Reel, name: &str, list: Option<Table>) -> Result<Self, Trouble> {
        let has_list = list.is_some();
        let list = list.map_or_else(|| own_marks(&reel), |table| table.marks);
        let page = Page {
            name,
            reel: &reel,
            has_list,
        };
        Ok(Self {
            page: page.write(),
            radii: Radii::ask()?,
            name: name.to_owned(),
            reel,
            list,
            has_list,
        })
    }

    /// Answers a request by its path.
    pub fn answer(&self, request: &Request) -> Reply {
        let query = request.query.as_str();
        let answer = match request.path.as_str() {
            "/" => fixed(query, kind::HTML, &self.page),
            "/page.css" => fixed(query, kind::CSS, include_str!("page.css")),
            "/page.js" => fixed(query, kind::SCRIPT, include_str!("page.js")),
            "/view" => self.view(query),
            "/why" => self.why(query),
            "/hold" => self.hold(query),
            "/picture.svg" => self.picture(query),
            _ => return Reply::refused(404, "there is nothing under this path"),
        };
        answer.unwrap_or_else(|trouble| Reply::refused(400, &trouble.to_string()))
    }

    /// What a view shows.
    fn view(&self, query: &str) -> Result<Reply, Trouble> {
        let args = query::read(query, VIEW_FIELDS)?;
        let view = args.view()?;
        let scene = Scene::of(&self.reel, &self.radii, view, args.flag("--hidden"))?;
        Ok(json(|json| write_scene(json, &scene)))
    }

    /// A picture of a view.
    fn picture(&self, query: &str) -> Result<Reply, Trouble> {
        let args = query::read(query, PICTURE_FIELDS)?;
        let size = args.value("--size").map_or(Ok(Size::USUAL), Size::read)?;
        let view = picture::view_of(&args, &self.reel)?;
        let hidden = args.flag("--hidden");
        let scene = Scene::of(&self.reel, &self.radii, view, hidden)?;
        let picture = svg::write(&scene, &self.name, size, hidden);
        Ok(Reply::found(kind::SVG, picture))
    }

    /// Why a mark is where it is.
    fn why(&self, query: &str) -> Result<Reply, Trouble> {
        let args = query::read(query, WHY_FIELDS)?;
        let mark = self.mark_of(&args)?;
        let fate = fates(&self.reel, args.view()?)?[mark];
        Ok(json(|json| self.write_why(json, mark, fate)))
    }

    fn mark_of(&self, args: &Args) -> Result<usize, Trouble> {
        let mark: Option<usize> = args.parsed("--mark", "the number of a mark")?;
        let mark = mark.ok_or_else(|| usage("--mark is missing".to_owned()))?;
        let n = self.reel.marks.len();
        match mark < n {
            true => Ok(mark),
            false => Err(usage(format!(
                "the sheet has {}, and no mark {mark}",
                words::marks(n)
            ))),
        }
    }

    fn write_why(&self, json: &mut Json, mark: usize, fate: Fate) {
        let place = self.reel.marks[mark];
        let sentences = why(&self.reel, mark);
        let links = chain(&self.reel, mark);
        json.object(|json| {
            json.name("mark").count(mark);
            json.name("what").string(&words::mark(&place));
            json.name("now").string(&fate_words(&self.reel, mark, fate));
            json.name("x").number(place.x);
            json.name("y").number(place.y);
            json.name("sentences").array(|json| {
                for sentence in sentences.iter().take(MOST_SENTENCES) {
                    json.string(sentence);
                }
            });
            json.name("more")
                .count(sentences.len().saturating_sub(MOST_SENTENCES));
            json.name("chain").array(|json| {
                for link in links.iter().take(MOST_SENTENCES) {
                    json.count(link.mark);
                }
            });
        });
    }

    /// The list held against the reel, as a view shows it.
    fn hold(&self, query: &str) -> Result<Reply, Trouble> {
        let args = query::read(query, HOLD_FIELDS)?;
        let wanted = Wanted::read(args.value("--fate").unwrap_or("all"))?;
        let from = args.parsed("--from", "the number of a row")?.unwrap_or(0);
        let view = args.view()?;
        let held = hold(&self.list, &self.reel, view)?;
        Ok(json(|json| {
            self.write_held(json, &held, wanted, from, view)
        }))
    }

    fn write_held(&self, json: &mut Json, held: &Held, wanted: Wanted, from: usize, view: View) {
        let answer = Answer {
            list: &self.list,
            reel: &self.reel,
            held,
        };
        let rows: Vec<&Row> = held.rows.iter().filter(|row| wanted.takes(row)).collect();
        json.object(|json| {
            json.name("listed").truth(self.has_list);
            json.name("view").string(&words::view(view));
            json.name("numbers").array(|json| {
                for line in self.number_lines(&answer) {
                    json.string(&line);
                }
            });
            json.name("explained")
                .truth(held.numbers.not_explained() == 0);
            json.name("found").count(rows.len());
            json.name("from").count(from);
            json.name("rows").array(|json| {
                for row in rows.iter().skip(from).take(MOST_ROWS) {
                    self.write_row(json, &answer, row);
                }
            });
        });
    }

    /// The numbers in lines. Where no list was given, those that speak of one are left out.
    fn number_lines(&self, answer: &Answer) -> Vec<String> {
        let numbers = answer.numbers();
        let of_list = |line: &&str| line.starts_with("the list:") || line.starts_with("the reel:");
        let lines = numbers
            .lines()
            .filter(|line| self.has_list || !of_list(line));
        let line = |line: &str| match (self.has_list, line.strip_prefix("in both:")) {
            (false, Some(rest)) => format!("the reel: {}", rest.trim_start()),
            _ => line.to_owned(),
        };
        lines.map(line).collect()
    }

    /// A row: the line of the list, the mark's number, where it is and what it is.
    fn write_row(&self, json: &mut Json, answer: &Answer, row: &Row) {
        let fate = answer.fate(row);
        let whole = answer.row(row);
        let what = whole.strip_prefix(&format!("{fate}: ")).unwrap_or(&whole);
        json.object(|json| {
            number_or_null(json.name("line"), row.listed.map(|at| self.list[at].line));
            number_or_null(json.name("mark"), row.mark);
            json.name("where").string(&fate);
            json.name("what").string(what);
            json.name("explained").truth(row.is_explained());
        });
    }
}

/// The reel's own marks as a list.
fn own_marks(reel: &Reel) -> Vec<Listed> {
    let marks = reel.marks.iter().zip(&reel.popups).enumerate();
    let listed = marks.map(|(m, (&mark, &popup))| Listed {
        line: m + 1,
        mark,
        popup: Some(popup),
    });
    listed.collect()
}

/// Which rows are asked for.
#[derive(Clone, Copy, Debug, PartialEq, Eq)]
enum Wanted {
    All,
    Shown,
    Hidden,
    Waiting,
    Outside,
    Unexplained,
}

impl Wanted {
    fn read(name: &str) -> Result<Self, Trouble> {
        match name {
            "all" => Ok(Self::All),
            "shown" => Ok(Self::Shown),
            "hidden" => Ok(Self::Hidden),
            "waiting" => Ok(Self::Waiting),
            "outside" => Ok(Self::Outside),
            "unexplained" => Ok(Self::Unexplained),
            _ => Err(usage(format!(
                "--fate: all, shown, hidden, waiting, outside or unexplained is wanted, and not {name}"
            ))),
        }
    }

    fn takes(self, row: &Row) -> bool {
        match self {
            Self::All => true,
            Self::Shown => row.fate == Fate::Shown,
            Self::Hidden => matches!(row.fate, Fate::Hidden { .. }),
            Self::Waiting => row.fate == Fate::NotYet,
            Self::Outside => row.fate == Fate::Outside,
            Self::Unexplained => !row.is_explained(),
        }
    }
}

/// A file that is always the same, and takes no query.
fn fixed(query: &str, kind: &'static str, body: &str) -> Result<Reply, Trouble> {
    match query {
        "" => Ok(Reply::found(kind, body)),
        _ => Err(usage("this path takes no query".to_owned())),
    }
}

fn json(write: impl FnOnce(&mut Json)) -> Reply {
    let mut text = Json::new();
    write(&mut text);
    Reply::found(kind::JSON, text.into_text())
}

fn number_or_null(json: &mut Json, number: Option<usize>) {
    match number {
        Some(number) => json.count(number),
        None => json.null(),
    }
}

/// A scene: what it is of, the labels and dots as rows of numbers, and the counts.
fn write_scene(json: &mut Json, scene: &Scene) {
    let view = scene.view;
    let k = words::in_64ths(view.zoom);
    json.object(|json| {
        json.name("said").string(&looked_at(scene));
        json.name("zoom").string(&zoom_words(k));
        json.name("k").number(k);
        json.name("turn").number(view.turn.quarters());
        json.name("labels").array(|json| {
            for label in &scene.labels {
                let (x, y) = label.place;
                let group = look::number(label.group) as i32;
                numbers(json, &[label.mark as i32, x, y, label.radius.into(), group]);
            }
        });
        json.name("dots").array(|json| {
            for dot in &scene.dots {
                let ((x, y), (to_x, to_y)) = (dot.place, dot.now_place);
                let group = look::number(dot.group) as i32;
                numbers(
                    json,
                    &[dot.mark as i32, x, y, group, dot.now as i32, to_x, to_y],
                );
            }
        });
        json.name("counts").array(|json| {
            for group in Group::ALL {
                write_tally(json, &scene.tallies[look::number(group)]);
            }
            write_tally(json, &Tally::sum(&scene.tallies));
        });
    });
}

fn numbers(json: &mut Json, numbers: &[i32]) {
    json.array(|json| {
        for &number in numbers {
            json.number(number);
        }
    });
}

/// The counts of a group.
fn write_tally(json: &mut Json, tally: &Tally) {
    json.array(|json| {
        for count in tally.columns() {
            json.count(count);
        }
    });
}
