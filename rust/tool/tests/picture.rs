//! Pictures: each is well-formed XML, and has exactly the labels that the library shows, in
//! their places and to scale, the hidden marks that are asked for, and the right counts.

mod common;

use std::collections::BTreeMap;

use common::{some_view, Drawn, Folder};
use oracle::record::{removals, Record};
use oracle::sample::Generator;
use oracle::zoom::lives;
use rollmap::{Group, Turn, View, Zoom};
use rollmap_tool::picture::look::look;
use rollmap_tool::picture::{draw, Size};
use rollmap_tool::words::in_64ths;
use rollmap_tool::Reel;

// ---- reading a picture

/// An element of a picture: its name, its attributes, and the text right inside it.
#[derive(Debug, Default)]
struct Element {
    name: String,
    attributes: BTreeMap<String, String>,
    text: String,
}

impl Element {
    fn get(&self, name: &str) -> &str {
        self.attributes
            .get(name)
            .unwrap_or_else(|| panic!("{name} is missing: {self:?}"))
    }

    fn number(&self, name: &str) -> f64 {
        self.get(name).parse().expect("it is a number")
    }

    fn has(&self, name: &str) -> bool {
        self.attributes.contains_key(name)
    }
}

/// The elements of a well-formed text, in the order in which they begin. Of XML it takes what
/// pictures have: elements, attributes in double quotes, text and the named entities.
fn elements(text: &str) -> Vec<Element> {
    let mut elements: Vec<Element> = Vec::new();
    let mut open: Vec<usize> = Vec::new();
    let mut rest = text;
    while let Some((before, behind)) = rest.split_once('<') {
        put_text(&mut elements, &open, before);
        let (tag, after) = behind.split_once('>').expect("a tag ends");
        rest = after;
        if let Some(name) = tag.strip_prefix('/') {
            let last = open.pop().expect("an element is open");
            assert_eq!(elements[last].name, name, "elements nest");
            continue;
        }
        assert!(!open.is_empty() || elements.is_empty(), "there is one root");
        let (tag, closed) = match tag.strip_suffix('/') {
            Some(tag) => (tag, true),
            None => (tag, false),
        };
        elements.push(element(tag));
        if !closed {
            open.push(elements.len() - 1);
        }
    }
    put_text(&mut elements, &open, rest);
    assert!(open.is_empty(), "every element is closed");
    elements
}

fn put_text(elements: &mut [Element], open: &[usize], text: &str) {
    let text = plain(text);
    match open.last() {
        Some(&last) => elements[last].text.push_str(&text),
        None => assert_eq!(text.trim(), "", "no text is outside the root"),
    }
}

/// An element by what stands in its tag.
fn element(tag: &str) -> Element {
    let (name, mut rest) = tag.split_once(' ').unwrap_or((tag, ""));
    let is_name = |name: &str| {
        let mut letters = name.chars();
        letters.next().is_some_and(|it| it.is_ascii_alphabetic())
            && letters.all(|it| it.is_ascii_alphanumeric() || it == '-')
    };
    assert!(is_name(name), "{tag}");
    let mut attributes = BTreeMap::new();
    while !rest.trim_start().is_empty() {
        let (name, behind) = rest
            .trim_start()
            .split_once("=\"")
            .expect("a value follows");
        let (value, after) = behind.split_once('"').expect("a value ends");
        assert!(is_name(name), "{tag}");
        assert!(after.is_empty() || after.starts_with(' '), "{tag}");
        let before = attributes.insert(name.to_owned(), plain(value));
        assert_eq!(before, None, "{name} is there once");
        rest = after;
    }
    Element {
        name: name.to_owned(),
        attributes,
        text: String::new(),
    }
}

/// A text without entities, of characters that XML has.
fn plain(text: &str) -> String {
    let is_taken = |it: char| it == '\n' || (it >= ' ' && it != '\u{fffe}' && it != '\u{ffff}');
    assert!(text.chars().all(is_taken), "{text:?}");
    let mut pieces = text.split('&');
    let mut plain = pieces.next().unwrap_or_default().to_owned();
    for piece in pieces {
        let (name, rest) = piece.split_once(';').expect("an entity ends");
        plain.push(match name {
            "lt" => '<',
            "gt" => '>',
            "amp" => '&',
            "quot" => '"',
            "#39" => '\'',
            _ => panic!("there is no entity {name}"),
        });
        plain.push_str(rest);
    }
    plain
}

/// What stands on the paper of a picture, with the numbers of the marks.
fn marked<'a>(elements: &'a [Element], name: &str) -> Vec<(usize, &'a Element)> {
    let with = elements.iter().filter(|element| element.has(name));
    with.map(|element| (element.number(name) as usize, element))
        .collect()
}

fn numbers(marked: &[(usize, &Element)]) -> Vec<usize> {
    marked.iter().map(|(number, _)| *number).collect()
}

// ---- random reels

/// What the oracle says is hidden in a view, and by which mark that lives now.
fn hidden(drawn: &Drawn, view: View) -> Vec<(usize, usize)> {
    let k = in_64ths(view.zoom);
    let list = removals(&drawn.records);
    let alive = |m: usize| lives(drawn.popup(m), list[m], k);
    let by = |m: usize| {
        let record = drawn.records[m];
        (record != Record::NEVER).then_some(usize::from(record.eliminator))
    };
    let inside = |m: usize| {
        let mark = drawn.marks[m];
        let (x, y) = view.turn.turned(mark.x, mark.y);
        (view.x0..=view.x1).contains(&x) && (view.y0..=view.y1).contains(&y)
    };
    let gone = |m: &usize| !alive(*m) && drawn.popup(*m) <= k && inside(*m);
    let now = |m: usize| {
        let mut chain = std::iter::successors(by(m), |&m| by(m));
        (m, chain.find(|&m| alive(m)).expect("a mark lives there"))
    };
    (0..drawn.marks.len()).filter(gone).map(now).collect()
}

/// The reel as it is opened from a sheet without a schedule, with one, or with counts too.
fn open(generator: &mut Generator, drawn: &Drawn) -> Reel {
    let sheet = drawn.sheet();
    let scheduled = rollmap::schedule_to_vec(&sheet).expect("the sheet is right");
    let counted = rollmap::count_to_vec(&scheduled).expect("it is scheduled");
    let sheets = [sheet, scheduled, counted];
    let chosen = generator.below(3) as usize;
    Reel::open(sheets[chosen].clone()).expect("the schedule is ours")
}

fn shown(reel: &Reel, view: View) -> Vec<usize> {
    let map = rollmap::view_to_map(&reel.scheduled, view).expect("the view is taken");
    map.iter().map(|mark| mark as usize).collect()
}

#[test]
fn exactly_the_shown_marks_are_drawn_and_the_hidden_ones_joined() {
    let mut generator = Generator::new(71);
    let (mut labels_seen, mut dots_seen) = (0, 0);
    for round in 0..600 {
        let n = generator.below(40) as usize;
        let drawn = Drawn::new(&mut generator, n);
        let reel = open(&mut generator, &drawn);
        let view = some_view(&mut generator, &drawn);
        let with_hidden = round % 2 == 0;
        let picture = draw(&reel, "reel", view, Size::USUAL, with_hidden).expect("it is drawn");
        let elements = elements(&picture);

        let labels = marked(&elements, "data-mark");
        assert_eq!(numbers(&labels), shown(&reel, view));
        let shape = match drawn.shape {
            oracle::shape::Shape::Disk => "circle",
            oracle::shape::Shape::Square => "rect",
        };
        assert!(labels.iter().all(|(_, label)| label.name == shape));
        labels_seen += labels.len();

        let dots = marked(&elements, "data-hidden");
        let joined = dots
            .iter()
            .map(|(m, dot)| (*m, dot.number("data-now") as usize));
        let expected = match with_hidden {
            true => hidden(&drawn, view),
            false => Vec::new(),
        };
        assert_eq!(joined.collect::<Vec<_>>(), expected);
        dots_seen += dots.len();
    }
    assert!(
        labels_seen > 1_000 && dots_seen > 1_000,
        "{labels_seen} {dots_seen}"
    );
}

#[test]
fn the_counts_beside_it_are_the_oracles_and_add_up() {
    let mut generator = Generator::new(72);
    for _ in 0..200 {
        let n = generator.below(60) as usize;
        let drawn = Drawn::new(&mut generator, n);
        let view = some_view(&mut generator, &drawn);
        let reel = open(&mut generator, &drawn);
        let picture = draw(&reel, "reel", view, Size::USUAL, false).expect("it is drawn");
        let rows = count_rows(&elements(&picture));
        let shown = shown(&reel, view);
        let k = in_64ths(view.zoom);
        let list = removals(&drawn.records);
        for (group, row) in Group::ALL.into_iter().zip(&rows) {
            let of_group = |m: &usize| Group::of(drawn.marks[*m].kind) == Some(group);
            let count =
                |is: &dyn Fn(usize) -> bool| (0..n).filter(of_group).filter(|&m| is(m)).count();
            let alive = |m: usize| lives(drawn.popup(m), list[m], k);
            let waiting = |m: usize| drawn.popup(m) > k;
            let expected = [
                count(&|m| shown.contains(&m)),
                count(&alive),
                count(&|m| !alive(m) && !waiting(m)),
                count(&waiting),
                count(&|_| true),
            ];
            assert_eq!(*row, expected, "{group:?}");
        }
        assert_eq!(rows[5], sum(&rows[..5]));
    }
}

/// The rows of counts: those of the groups, and that of all.
fn count_rows(elements: &[Element]) -> Vec<[usize; 5]> {
    let heads = elements.iter().position(|element| element.text == "all");
    let texts = elements[heads.expect("there are heads") + 1..].iter();
    let counts: Vec<usize> = texts
        .filter(|text| text.name == "text" && text.has("text-anchor"))
        .map(|text| text.text.parse().expect("it is a count"))
        .collect();
    let (rows, rest) = counts.as_chunks();
    assert_eq!((rows.len(), rest.len()), (6, 0));
    rows.to_vec()
}

/// The sum of some rows, of which each adds up by itself.
fn sum(rows: &[[usize; 5]]) -> [usize; 5] {
    let mut sum = [0; 5];
    for row in rows {
        assert_eq!(row[1] + row[2] + row[3], row[4]);
        assert!(row[0] <= row[1]);
        for (sum, count) in sum.iter_mut().zip(row) {
            *sum += count;
        }
    }
    sum
}

// ---- one picture, by hand

/// A reel of three marks far apart, without popups.
fn three() -> Vec<u8> {
    let mark = |x, y, radius, kind| rollmap::Mark {
        x,
        y,
        radius,
        priority: 1,
        kind,
        tag: 0,
    };
    let marks = [
        mark(0, 0, 10, 0),
        mark(400, 100, 20, 60),
        mark(100, 200, 0, 160),
    ];
    let marks = rollmap::marks_to_vec(&marks);
    rollmap::assemble_to_vec(&[(rollmap::Code::Marks, &marks)]).expect("the marks are right")
}

#[test]
fn labels_are_to_scale_and_house_radii_are_used() {
    let reel = Reel::open(three()).unwrap();
    let view = View {
        x0: -100,
        x1: 500,
        y0: -100,
        y1: 300,
        ..View::whole(Zoom::Wheel(0.25))
    };
    let picture = draw(&reel, "reel", view, Size::USUAL, false).unwrap();
    let elements = elements(&picture);
    let labels = marked(&elements, "data-mark");
    let at = |number: usize, name: &str| labels[number].1.number(name);
    let scale = (at(1, "cx") - at(0, "cx")) / 400.0;
    assert!(scale > 1.0);
    let near = |a: f64, b: f64| assert!((a - b).abs() < 0.02, "{a} {b}");
    near(at(1, "cy") - at(0, "cy"), 100.0 * scale);
    near(at(2, "cx") - at(0, "cx"), 100.0 * scale);
    near(at(2, "cy") - at(0, "cy"), 200.0 * scale);
    for (mark, radius) in [(0, 10.0), (1, 20.0), (2, 200.0)] {
        near(at(mark, "r"), 0.25 * radius * scale);
    }
}

#[test]
fn a_quarter_turn_takes_x_y_to_minus_y_x() {
    let reel = Reel::open(three()).unwrap();
    let view = View {
        turn: Turn::Quarter,
        ..View::whole(Zoom::Wheel(0.25))
    };
    let picture = draw(&reel, "reel", view, Size::USUAL, false).unwrap();
    let elements = elements(&picture);
    let labels = marked(&elements, "data-mark");
    let of = |mark: usize, name: &str| labels[mark].1.number(name);
    assert!(of(1, "cx") < of(0, "cx"), "y grows to the left");
    assert!(of(1, "cy") > of(0, "cy"), "x grows downwards");
}

#[test]
fn the_legend_does_not_rest_on_colour() {
    let reel = Reel::open(three()).unwrap();
    let view = View::whole(Zoom::Stop(0));
    let picture = draw(&reel, "reel", view, Size::USUAL, true).unwrap();
    let elements = elements(&picture);
    for (number, group) in Group::ALL.into_iter().enumerate() {
        let look = look(group);
        let texts = |text: &str| {
            elements
                .iter()
                .any(|it| it.name == "text" && it.text == text)
        };
        assert!(
            texts(look.name) && texts(&look.letter.to_string()),
            "{group:?}"
        );
        let fill = format!("url(#fill-{number})");
        let swatch = elements
            .iter()
            .find(|it| it.attributes.get("fill") == Some(&fill));
        assert!(swatch.is_some(), "{group:?}");
        let pattern = format!("fill-{number}");
        let named = elements
            .iter()
            .filter(|it| it.attributes.get("id") == Some(&pattern));
        assert_eq!(named.count(), 1);
    }
}

#[test]
fn a_picture_tells_what_it_is() {
    let reel = Reel::open(three()).unwrap();
    let view = View::whole(Zoom::Stop(0));
    let name = "a<b>&\"c'\u{1}\n.sheet";
    let picture = draw(&reel, name, view, Size::USUAL, false).unwrap();
    let elements = elements(&picture);
    let root = &elements[0];
    assert_eq!((root.name.as_str(), root.get("role")), ("svg", "img"));
    assert_eq!(root.get("aria-labelledby"), "title desc");
    let by_id = |id: &str| {
        elements
            .iter()
            .find(|it| it.attributes.get("id").is_some_and(|it| it == id))
    };
    let title = &by_id("title").unwrap().text;
    assert_eq!(title, "Roll map of a<b>&\"c'\u{fffd} .sheet");
    let desc = &by_id("desc").unwrap().text;
    assert!(desc.contains("3 of 3 marks shown"), "{desc}");
    assert!(desc.contains("break: 1 of 1"), "{desc}");
    for outside in ["href", "<style", "<script", "<image", "url(h"] {
        assert!(!picture.contains(outside), "{outside}");
    }
}

#[test]
fn the_largest_sheet_is_drawn() {
    let marks = oracle::sample::marks(oracle::sample::Layout::Uniform, 4_096, 5);
    let sheet = oracle::contents::join_parts(&[(1, &oracle::mark::write_marks(&marks))]);
    let reel = Reel::open(sheet).unwrap();
    for stop in [0, 9, 16] {
        let view = View::whole(Zoom::Stop(stop));
        let picture = draw(&reel, "reel", view, Size::USUAL, true).unwrap();
        let elements = elements(&picture);
        assert_eq!(numbers(&marked(&elements, "data-mark")), shown(&reel, view));
    }
}

// ---- the command

#[test]
fn the_command_writes_a_file_or_standard_output() {
    let folder = Folder::new("picture");
    folder.write("a.sheet", three());
    let printed = folder
        .call("picture a.sheet --stop 3 --hidden")
        .ended(0)
        .out;
    folder
        .call("picture a.sheet --stop 3 --hidden -o a.svg")
        .ended(0);
    folder
        .call("picture --output=b.svg a.sheet --zoom 8/64 --hidden")
        .ended(0);
    assert_eq!(folder.read("a.svg"), printed.as_bytes());
    assert_eq!(folder.read("b.svg"), printed.as_bytes());
    let elements = elements(&printed);
    assert_eq!(numbers(&marked(&elements, "data-mark")), [0, 1, 2]);
    assert!(printed.contains("a.sheet"));
    let other = folder.call("picture a.sheet --size 700x500").ended(0).out;
    assert!(other.contains("width=\"700\" height=\"500\""));
}

#[test]
fn without_a_view_everything_is_in_it() {
    let mut generator = Generator::new(73);
    let folder = Folder::new("picture-everything");
    for _ in 0..30 {
        let n = 1 + generator.below(20) as usize;
        let drawn = Drawn::new(&mut generator, n);
        folder.write("a.sheet", drawn.sheet());
        let stop = generator.below(17);
        let picture = folder
            .call(&format!("picture a.sheet --stop {stop}"))
            .ended(0)
            .out;
        let whole = View::whole(Zoom::Stop(stop as u8));
        let elements = elements(&picture);
        assert_eq!(
            numbers(&marked(&elements, "data-mark")),
            shown(&drawn.open(), whole)
        );
    }
}

#[test]
fn what_is_refused_writes_nothing() {
    let folder = Folder::new("picture-refused");
    folder.write("a.sheet", three());
    let square = rollmap::Shape::Square.to_bytes();
    let marks = rollmap::marks_to_vec(&[]);
    let parts = [
        (rollmap::Code::Marks, &marks[..]),
        (rollmap::Code::Shape, &square[..]),
    ];
    folder.write("square.sheet", rollmap::assemble_to_vec(&parts).unwrap());
    folder.write("none.sheet", "not a sheet");
    let before = folder.names();
    for (call, status, words) in [
        ("picture", 2, "missing"),
        ("picture a.sheet b.sheet", 2, "too many"),
        ("picture nothing.sheet -o a.svg", 2, "nothing.sheet"),
        ("picture a.sheet --size 10x10 -o a.svg", 2, "640x480"),
        ("picture a.sheet --size 99999999999x10 -o a.svg", 2, "size"),
        ("picture a.sheet --view 1,2,3 -o a.svg", 2, "--view"),
        ("picture a.sheet --zoom 1 --stop 1 -o a.svg", 2, "both"),
        ("picture a.sheet --stop 17 -o a.svg", 3, "question 12"),
        ("picture a.sheet --view 9,0,0,9 -o a.svg", 3, "question 11"),
        (
            "picture a.sheet --view 0,40000,0,9 -o a.svg",
            3,
            "question 20",
        ),
        ("picture a.sheet --turn 4 -o a.svg", 3, "question 20"),
        ("picture square.sheet --turn 1 -o a.svg", 3, "question 20"),
        ("picture none.sheet -o a.svg", 3, "question"),
    ] {
        let called = folder.call(call).ended(status);
        assert!(called.err.contains(words), "{call}: {}", called.err);
        assert_eq!(called.out, "");
    }
    assert_eq!(folder.names(), before);
}
