//! Writes a scene as SVG. Everything is said by attributes: no style sheet, no script, and
//! nothing from elsewhere.

use std::fmt::{self, Display, Formatter};

use rollmap::{Group, Shape, Turn};

use super::frame::{ticks, Frame, HEADING, LEGEND};
use super::look::{look, number, patterns, INK};
use super::numbers::{Room, Spot};
use super::scene::{zoom_words, Dot, Label, Scene, Tally, HEADS};
use super::xml::Escaped;
use super::Size;
use crate::words;

/// From this radius on a label has its group's pattern; below it, one glyph of it.
const PATTERN_RADIUS: f64 = 7.0;

/// From this radius on a label has a glyph; below it there is no room for one.
const GLYPH_RADIUS: f64 = 2.5;

/// The radius of the dot of a hidden mark.
const DOT_RADIUS: f64 = 2.6;

/// The height of a row of the legend.
const ROW: f64 = 24.0;

/// How far apart the numbers along the edges stand at least, in pixels.
const APART: (f64, f64) = (80.0, 48.0);

/// What the heads of the counts mean.
const MEANINGS: [&str; 4] = [
    "shown: lives, and its label reaches this view",
    "living: shown, or outside this view",
    "hidden: another mark has removed it",
    "waiting: pops up at a larger zoom",
];

/// A number of pixels, to a hundredth.
#[derive(Clone, Copy)]
struct Px(f64);

impl Display for Px {
    fn fmt(&self, out: &mut Formatter<'_>) -> fmt::Result {
        let text = format!("{:.2}", self.0);
        let text = text.trim_end_matches('0').trim_end_matches('.');
        out.write_str(if text == "-0" { "0" } else { text })
    }
}

/// The picture of a scene of the reel that is called `name`; `hidden` says whether the hidden
/// marks were asked for.
pub fn write(scene: &Scene, name: &str, size: Size, hidden: bool) -> String {
    let frame = Frame::of(scene.view, size);
    let mut out = String::new();
    head(&mut out, scene, name, size);
    heading(&mut out, scene, name);
    edges(&mut out, scene, &frame);
    map(&mut out, scene, &frame);
    legend(&mut out, scene, size, hidden);
    out.push_str("</svg>\n");
    out
}

/// What the picture is, for those who do not see it, and the patterns.
fn head(out: &mut String, scene: &Scene, name: &str, size: Size) {
    let Size { width, height } = size;
    put!(
        out,
        "<svg xmlns=\"http://www.w3.org/2000/svg\" width=\"{width}\" height=\"{height}\" \
         viewBox=\"0 0 {width} {height}\" role=\"img\" aria-labelledby=\"title desc\" \
         font-family=\"sans-serif\" font-size=\"13\" fill=\"{INK}\">\n\
         <title id=\"title\">{}</title>\n<desc id=\"desc\">{}</desc>\n\
         <defs>\n{}</defs>\n<rect width=\"{width}\" height=\"{height}\" fill=\"#ffffff\"/>\n",
        Escaped(&format!("Roll map of {name}")),
        Escaped(&description(scene)),
        patterns()
    );
}

/// The whole picture in sentences.
pub fn description(scene: &Scene) -> String {
    let all = Tally::sum(&scene.tallies);
    let groups = Group::ALL.map(|group| {
        let tally = scene.tallies[number(group)];
        format!("{}: {} of {}", look(group).name, tally.shown, tally.all())
    });
    let mut text = format!(
        "{}. {} of {} shown; {} of the others live outside this view, {} hidden, and {} yet to \
         pop up. Shown by group: {}.",
        looked_at(scene),
        all.shown,
        words::marks(all.all()),
        all.outside,
        are(all.hidden),
        are(all.waiting),
        groups.join("; ")
    );
    if all.unexplained > 0 {
        put!(&mut text, " {} unexplained.", are(all.unexplained));
    }
    text
}

/// `1 is`, `2 are`.
fn are(count: usize) -> String {
    let verb = if count == 1 { "is" } else { "are" };
    format!("{count} {verb}")
}

/// The view in words.
pub fn looked_at(scene: &Scene) -> String {
    let view = scene.view;
    let turn = match view.turn {
        Turn::None => "not turned",
        Turn::Quarter => "turned by one quarter turn",
        Turn::Half => "turned by two quarter turns",
        Turn::ThreeQuarters => "turned by three quarter turns",
    };
    format!(
        "At {}, {turn}, x {} to {}, y {} to {}",
        zoom_words(words::in_64ths(view.zoom)),
        view.x0,
        view.x1,
        view.y0,
        view.y1
    )
}

fn heading(out: &mut String, scene: &Scene, name: &str) {
    let all = Tally::sum(&scene.tallies);
    put!(
        out,
        "<text x=\"16\" y=\"26\" font-size=\"18\" font-weight=\"bold\">{}</text>\n\
         <text x=\"16\" y=\"48\">{}: {} of {} shown</text>\n",
        Escaped(name),
        Escaped(&looked_at(scene)),
        all.shown,
        words::marks(all.all())
    );
}

/// The border of the map, and the places along it.
fn edges(out: &mut String, scene: &Scene, frame: &Frame) {
    let view = scene.view;
    let (left, top) = (Px(frame.left), Px(frame.top));
    let (width, height) = (Px(frame.width), Px(frame.height));
    put!(
        out,
        "<clipPath id=\"map\"><rect x=\"{left}\" y=\"{top}\" width=\"{width}\" \
         height=\"{height}\"/></clipPath>\n\
         <rect x=\"{left}\" y=\"{top}\" width=\"{width}\" height=\"{height}\" fill=\"#f6f6f2\" \
         stroke=\"{INK}\"/>\n<g font-size=\"11\">\n"
    );
    let bottom = frame.top + frame.height;
    for x in ticks(view.x0, view.x1, frame.scale, APART.0) {
        let at = Px(frame.point((x, 0)).0);
        put!(
            out,
            "<path d=\"M{at} {}v6\" stroke=\"{INK}\"/><text x=\"{at}\" y=\"{}\" \
             text-anchor=\"middle\">{x}</text>\n",
            Px(bottom),
            Px(bottom + 18.0)
        );
    }
    for y in ticks(view.y0, view.y1, frame.scale, APART.1) {
        let at = frame.point((0, y)).1;
        put!(
            out,
            "<path d=\"M{left} {}h-6\" stroke=\"{INK}\"/><text x=\"{}\" y=\"{}\" \
             text-anchor=\"end\">{y}</text>\n",
            Px(at),
            Px(frame.left - 9.0),
            Px(at + 4.0)
        );
    }
    out.push_str("</g>\n");
}

/// Labels, what is hidden, and the numbers on top.
fn map(out: &mut String, scene: &Scene, frame: &Frame) {
    out.push_str("<g clip-path=\"url(#map)\">\n");
    for label in &scene.labels {
        draw_label(out, scene.shape, frame, label);
    }
    for dot in &scene.dots {
        join(out, frame, dot);
    }
    for dot in &scene.dots {
        draw_dot(out, frame, dot);
    }
    put!(
        out,
        "<g text-anchor=\"middle\" font-weight=\"bold\" stroke=\"#ffffff\" stroke-width=\"3\" \
         stroke-linejoin=\"round\" paint-order=\"stroke\" pointer-events=\"none\">\n"
    );
    write_numbers(out, scene, frame);
    out.push_str("</g>\n</g>\n");
}

/// A label to scale, with what is known of its mark for whoever points at it.
fn draw_label(out: &mut String, shape: Shape, frame: &Frame, label: &Label) {
    let (x, y) = frame.point(label.place);
    let radius = frame.radius(label.radius);
    let look = look(label.group);
    let fill = match radius >= PATTERN_RADIUS {
        true => format!("url(#fill-{})", number(label.group)),
        false => look.fill.to_owned(),
    };
    let rest = format!(
        "fill=\"{fill}\" stroke=\"{INK}\" stroke-width=\"{}\" data-mark=\"{}\" \
         data-group=\"{}\"><title>{}</title>",
        Px(outline(radius)),
        label.mark,
        number(label.group),
        label_title(label)
    );
    match shape {
        Shape::Disk => put!(
            out,
            "<circle cx=\"{}\" cy=\"{}\" r=\"{}\" {rest}</circle>",
            Px(x),
            Px(y),
            Px(radius)
        ),
        Shape::Square => put!(
            out,
            "<rect x=\"{}\" y=\"{}\" width=\"{side}\" height=\"{side}\" {rest}</rect>",
            Px(x - radius),
            Px(y - radius),
            side = Px(2.0 * radius)
        ),
    }
    glyph(out, label.group, (x, y), radius);
    out.push('\n');
}

/// One motif of the pattern, on a label that is too small for the pattern.
fn glyph(out: &mut String, group: Group, (x, y): (f64, f64), radius: f64) {
    let path = look(group).glyph;
    if !(GLYPH_RADIUS..PATTERN_RADIUS).contains(&radius) || path.is_empty() {
        return;
    }
    put!(
        out,
        "<path d=\"{path}\" transform=\"translate({} {}) scale({})\" fill=\"none\" \
         stroke=\"{INK}\" stroke-width=\"{}\" stroke-linecap=\"round\"/>",
        Px(x),
        Px(y),
        Px(radius),
        glyph_width(group)
    );
}

/// How thick a glyph is in a label of radius 1: a dot is a stroke without length.
const fn glyph_width(group: Group) -> &'static str {
    match group {
        Group::Spot => "0.7",
        _ => "0.3",
    }
}

/// How thick the outline of a label is.
fn outline(radius: f64) -> f64 {
    (radius / 6.0).clamp(0.4, 1.4)
}

fn label_title(label: &Label) -> String {
    let (x, y) = label.place;
    format!(
        "mark {}, {}, at {x}, {y}, radius {}",
        label.mark,
        look(label.group).name,
        label.radius
    )
}

/// The line from a hidden mark to the one that lives there now.
fn join(out: &mut String, frame: &Frame, dot: &Dot) {
    let (x, y) = frame.point(dot.place);
    let (to_x, to_y) = frame.point(dot.now_place);
    put!(
        out,
        "<path d=\"M{} {}L{} {}\" fill=\"none\" stroke=\"{INK}\" \
         stroke-width=\"0.8\" stroke-opacity=\"0.7\"/>\n",
        Px(x),
        Px(y),
        Px(to_x),
        Px(to_y)
    );
}

fn draw_dot(out: &mut String, frame: &Frame, dot: &Dot) {
    let (x, y) = frame.point(dot.place);
    put!(
        out,
        "<circle cx=\"{}\" cy=\"{}\" r=\"{}\" fill=\"{}\" stroke=\"{INK}\" \
         data-hidden=\"{}\" data-now=\"{}\"><title>mark {}, {}, hidden: mark {} lives there \
         now</title></circle>\n",
        Px(x),
        Px(y),
        Px(DOT_RADIUS),
        look(dot.group).fill,
        dot.mark,
        dot.now,
        dot.mark,
        look(dot.group).name,
        dot.now
    );
}

/// The number of each label that has room for it, inside or beside.
fn write_numbers(out: &mut String, scene: &Scene, frame: &Frame) {
    let mut room = Room::default();
    let mut outer = Vec::new();
    for label in &scene.labels {
        let at = frame.point(label.place);
        let radius = frame.radius(label.radius);
        let text = format!("{}{}", look(label.group).letter, label.mark);
        let square = scene.shape == Shape::Square;
        match Room::within(frame, at, radius, square, text.len()) {
            Some(spot) => write_number(out, &text, spot),
            None => outer.push((at, radius, text)),
        }
        room.take(at, radius);
    }
    for dot in &scene.dots {
        room.take(frame.point(dot.place), DOT_RADIUS);
    }
    for (at, radius, text) in outer {
        if let Some(spot) = room.beside(frame, at, radius, text.len()) {
            write_number(out, &text, spot);
        }
    }
}

fn write_number(out: &mut String, text: &str, spot: Spot) {
    put!(
        out,
        "<text x=\"{}\" y=\"{}\" font-size=\"{}\">{text}</text>\n",
        Px(spot.x),
        // Digits are about 0.7 of their size high.
        Px(spot.y + 0.36 * spot.size),
        Px(spot.size)
    );
}

/// The groups with their patterns, letters, names and counts, and what else is drawn.
fn legend(out: &mut String, scene: &Scene, size: Size, hidden: bool) {
    let left = f64::from(size.width) - LEGEND + 20.0;
    put!(
        out,
        "<g transform=\"translate({} {})\">\n",
        Px(left),
        Px(HEADING)
    );
    put!(
        out,
        "<text y=\"14\" font-weight=\"bold\">Marks by group</text>\n"
    );
    count_heads(out, 2.0 * ROW);
    for group in Group::ALL {
        let y = (3 + number(group)) as f64 * ROW;
        swatch(out, group, y);
        counts(out, &scene.tallies[number(group)], y);
    }
    let total = 8.0 * ROW;
    put!(
        out,
        "<path d=\"M0 {}h370\" stroke=\"{INK}\"/><text y=\"{}\">together</text>\n",
        Px(total - 17.0),
        Px(total)
    );
    counts(out, &Tally::sum(&scene.tallies), total);
    notes(out, scene, hidden, 9.5 * ROW);
    out.push_str("</g>\n");
}

/// Where the columns of the counts end.
const COLUMNS: [f64; 5] = [194.0, 236.0, 282.0, 332.0, 370.0];

fn count_heads(out: &mut String, y: f64) {
    for (column, head) in COLUMNS.into_iter().zip(HEADS) {
        put!(
            out,
            "<text x=\"{}\" y=\"{}\" text-anchor=\"end\" font-size=\"11\">{head}</text>\n",
            Px(column),
            Px(y)
        );
    }
}

fn counts(out: &mut String, tally: &Tally, y: f64) {
    for (column, count) in COLUMNS.into_iter().zip(tally.columns()) {
        put!(
            out,
            "<text x=\"{}\" y=\"{}\" text-anchor=\"end\">{}</text>\n",
            Px(column),
            Px(y),
            count
        );
    }
}

/// The sign of a group, its letter and its name.
fn swatch(out: &mut String, group: Group, y: f64) {
    let look = look(group);
    put!(
        out,
        "<rect y=\"{}\" width=\"26\" height=\"18\" fill=\"url(#fill-{})\" stroke=\"{INK}\">\
         <title>{}: {}</title></rect><text x=\"34\" y=\"{y}\" font-weight=\"bold\">{}</text>\
         <text x=\"50\" y=\"{y}\">{}</text>\n",
        Px(y - 14.0),
        number(group),
        look.name,
        look.pattern,
        look.letter,
        look.name,
        y = Px(y)
    );
}

/// What else is to be said beside the map.
fn notes(out: &mut String, scene: &Scene, hidden: bool, top: f64) {
    let unexplained = Tally::sum(&scene.tallies).unexplained;
    let mut lines: Vec<String> = MEANINGS.map(str::to_owned).to_vec();
    if unexplained > 0 {
        lines.push(format!("{} unexplained", are(unexplained)));
    }
    lines.push(String::new());
    lines.push(format!(
        "The labels are {}, to scale;",
        words::shape(scene.shape)
    ));
    lines.push("the smallest are drawn as dots.".to_owned());
    if hidden {
        lines.push(format!(
            "{} in this view: a small dot,",
            words::counted(scene.dots.len(), "hidden mark")
        ));
        lines.push("joined to the mark that lives there now.".to_owned());
    }
    out.push_str("<g font-size=\"12\">\n");
    for (at, line) in lines.iter().enumerate() {
        let y = Px(top + 18.0 * at as f64);
        put!(out, "<text y=\"{y}\">{}</text>\n", Escaped(line));
    }
    out.push_str("</g>\n");
}
