//! Zooms, marks and removals in words.

use rollmap::{Edition, Group, Mark, Shape, Turn, View, Zoom};

/// Zooms are told in 64ths.
const PER_ZOOM: u64 = 64;

/// A 64th in millionths: it has six decimals.
const MILLIONTHS: u64 = 15_625;

/// 64 times a zoom that the library takes.
pub fn in_64ths(zoom: Zoom) -> u32 {
    match zoom {
        Zoom::Stop(stop) => 1_u32.checked_shl(stop.into()).unwrap_or(0),
        Zoom::Wheel(wheel) => (wheel * PER_ZOOM as f32) as u32,
    }
}

/// The zoom of so many 64ths, exactly: `5`, `0.203125`.
pub fn zoom_of(k: u64) -> String {
    let (whole, rest) = (k / PER_ZOOM, k % PER_ZOOM);
    if rest == 0 {
        return whole.to_string();
    }
    let decimals = format!("{:06}", rest * MILLIONTHS);
    format!("{whole}.{}", decimals.trim_end_matches('0'))
}

/// A zoom that the library takes, exactly.
pub fn zoom(zoom: Zoom) -> String {
    zoom_of(in_64ths(zoom).into())
}

/// 64 times the root of a fraction with a denominator above 0, to the nearest whole number,
/// an exact half to the even one; and whether it is exactly that number.
pub fn nearest_64th(numerator: u64, denominator: u64) -> (u64, bool) {
    let (numerator, denominator) = (u128::from(numerator), u128::from(denominator));
    // Twice 64 times the root, with the rest dropped.
    let halves = (16_384 * numerator / denominator).isqrt();
    let exact = halves * halves * denominator == 16_384 * numerator;
    let nearest = if exact && halves % 4 == 1 {
        halves / 2
    } else {
        halves.div_ceil(2)
    };
    (nearest as u64, exact && halves % 2 == 0)
}

/// The zoom whose square is a fraction with a denominator above 0: exactly where 64 times it
/// is whole, else to the nearest 64th and with the two numbers.
pub fn zoom_of_square(numerator: u64, denominator: u64) -> String {
    let (nearest, exact) = nearest_64th(numerator, denominator);
    let zoom = zoom_of(nearest);
    if exact {
        format!("zoom {zoom}")
    } else {
        format!("about zoom {zoom} (z² = {numerator}/{denominator})")
    }
}

/// The name of a group.
pub const fn group_name(group: Group) -> &'static str {
    match group {
        Group::Note => "note",
        Group::Spot => "spot",
        Group::Streak => "streak",
        Group::Patch => "moisture patch",
        Group::Break => "break",
    }
}

/// The name of a kind's group.
pub fn kind_name(kind: u8) -> &'static str {
    Group::of(kind).map_or("unknown kind", group_name)
}

/// A mark by its fields: `spot (kind 12) at 100, 0, radius 10, priority 5, tag 7`.
pub fn mark(mark: &Mark) -> String {
    let Mark {
        x,
        y,
        radius,
        priority,
        kind,
        tag,
    } = *mark;
    let radius = match radius {
        0 => "house radius".to_owned(),
        own => format!("radius {own}"),
    };
    let name = kind_name(kind);
    format!("{name} (kind {kind}) at {x}, {y}, {radius}, priority {priority}, tag {tag}")
}

/// An edition in words.
pub const fn edition(edition: Edition) -> &'static str {
    match edition {
        Edition::First => "first edition",
        Edition::Second => "second edition",
    }
}

/// A shape in words.
pub const fn shape(shape: Shape) -> &'static str {
    match shape {
        Shape::Disk => "disks",
        Shape::Square => "squares",
    }
}

/// A turn in words.
pub const fn turn(turn: Turn) -> &'static str {
    match turn {
        Turn::None => "no turn",
        Turn::Quarter => "one quarter turn",
        Turn::Half => "two quarter turns",
        Turn::ThreeQuarters => "three quarter turns",
    }
}

/// A view that the library takes, in words.
pub fn view(view: View) -> String {
    let zoom = zoom(view.zoom);
    let turn = turn(view.turn);
    let place = if view
        == (View {
            turn: view.turn,
            ..View::whole(view.zoom)
        }) {
        "all places".to_owned()
    } else {
        let View { x0, x1, y0, y1, .. } = view;
        format!("x {x0} to {x1}, y {y0} to {y1}")
    };
    let stop = match view.zoom {
        Zoom::Stop(stop) => format!("stop {stop}, "),
        Zoom::Wheel(_) => String::new(),
    };
    format!("{stop}zoom {zoom}, {place}, {turn}")
}

/// So many marks: `1 mark`, `2 marks`.
pub fn marks(n: usize) -> String {
    counted(n, "mark")
}

/// So many of a thing whose name gets an s where they are not one.
pub fn counted(n: usize, thing: &str) -> String {
    let s = if n == 1 { "" } else { "s" };
    format!("{n} {thing}{s}")
}

/// Words one after the other: `a`, `a and b`, `a, b and c`.
pub fn and(words: &[String]) -> String {
    match words {
        [] => String::new(),
        [one] => one.clone(),
        [before @ .., last] => format!("{} and {last}", before.join(", ")),
    }
}

#[cfg(test)]
mod tests {
    use super::*;

    #[test]
    fn a_zoom_is_told_exactly() {
        let told = [
            (0, "0"),
            (1, "0.015625"),
            (13, "0.203125"),
            (16, "0.25"),
            (64, "1"),
            (320, "5"),
        ];
        for (k, zoom) in told {
            assert_eq!(zoom_of(k), zoom);
            assert_eq!(zoom.parse(), Ok(k as f64 / 64.0));
        }
        assert_eq!(zoom_of(65_536), "1024");
    }

    #[test]
    fn a_stop_and_its_wheel_value_are_the_same_64ths() {
        for stop in 0..=16 {
            let k = in_64ths(Zoom::Stop(stop));
            assert_eq!(k, 1 << stop);
            assert_eq!(in_64ths(Zoom::Wheel(k as f32 / 64.0)), k);
        }
    }

    #[test]
    fn a_removal_zoom_is_exact_or_the_nearest_64th() {
        assert_eq!(zoom_of_square(10_000, 400), "zoom 5");
        assert_eq!(zoom_of_square(0, 4), "zoom 0");
        let about = "about zoom 0.203125 (z² = 9/225)";
        assert_eq!(zoom_of_square(9, 225), about);
        // An exact half goes to the even number: 12.5 to 12, and 13.5 to 14.
        assert_eq!(nearest_64th(625, 16_384), (12, false));
        assert_eq!(nearest_64th(729, 16_384), (14, false));
    }

    #[test]
    fn removal_zooms_of_any_size_are_told() {
        assert_eq!(nearest_64th(u64::MAX, u64::MAX), (64, true));
        assert_eq!(nearest_64th(0, u64::MAX), (0, true));
        assert_eq!(nearest_64th(u64::MAX, 1).0, 64 << 32);
    }

    #[test]
    fn words_are_joined_as_a_person_does() {
        let words = ["a", "b", "c"].map(str::to_owned);
        let joined = [0, 1, 2, 3].map(|n| and(&words[..n]));
        assert_eq!(joined, ["", "a", "a and b", "a, b and c"]);
        assert_eq!([0, 1, 2].map(marks), ["0 marks", "1 mark", "2 marks"]);
    }

    #[test]
    fn a_view_is_told_by_its_zoom_its_edges_and_its_turn() {
        let whole = View::whole(Zoom::Stop(8));
        assert_eq!(view(whole), "stop 8, zoom 4, all places, no turn");
        let turned = View {
            x0: -1,
            turn: Turn::Half,
            zoom: Zoom::Wheel(0.25),
            ..whole
        };
        let words = "zoom 0.25, x -1 to 32768, y -32768 to 32768, two quarter turns";
        assert_eq!(view(turned), words);
    }
}
