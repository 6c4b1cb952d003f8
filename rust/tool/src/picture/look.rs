//! How the groups of kinds look, in the picture and on the page: each has a colour, a pattern, a
//! glyph for labels that are too small for a pattern, a letter and a name. Whoever does not see
//! the colours tells them by any of the others.

use std::fmt::Write;

use rollmap::{Group, GROUPS};

/// The look of a group.
#[derive(Clone, Copy, Debug)]
pub struct Look {
    /// The group's name in words.
    pub name: &'static str,
    /// The letter in front of a mark's number.
    pub letter: char,
    /// The fill.
    pub fill: &'static str,
    /// The pattern in words.
    pub pattern: &'static str,
    /// What a tile of the pattern draws on the fill, as the path of a stroke.
    pub tile: &'static str,
    /// One motif of the pattern, as the path of a stroke within a label of radius 1.
    pub glyph: &'static str,
}

/// The side of a pattern's tile, in pixels.
pub const TILE: u32 = 8;

/// The ink of outlines, patterns and words.
pub const INK: &str = "#222222";

/// The look of a group.
pub const fn look(group: Group) -> Look {
    LOOKS[number(group)]
}

/// The looks, in the order of [`Group::ALL`]. The fills differ for colour-blind readers of each
/// kind, and in lightness alone, as in a print without colours; the tests measure that.
const LOOKS: [Look; GROUPS] = [
    Look {
        name: "note",
        letter: 'N',
        fill: "#ffffff",
        pattern: "plain",
        tile: "",
        glyph: "",
    },
    Look {
        name: "spot",
        letter: 'S',
        fill: "#f0e442",
        pattern: "dots",
        tile: "M2 2h.01M6 6h.01",
        glyph: "M0 0h.01",
    },
    Look {
        name: "streak",
        letter: 'T',
        fill: "#99d65c",
        pattern: "slanting stripes",
        tile: "M-1 5L5-1M3 9L9 3",
        glyph: "M-.4.4L.4-.4",
    },
    Look {
        name: "moisture patch",
        letter: 'M',
        fill: "#25aff4",
        pattern: "waves",
        tile: "M0 4q2-3 4 0t4 0",
        glyph: "M-.6 0q.3-.5.6 0t.6 0",
    },
    Look {
        name: "break",
        letter: 'B',
        fill: "#f2590d",
        pattern: "crosses",
        tile: "M0 0L8 8M0 8L8 0",
        glyph: "M-.5-.5L.5.5M-.5.5L.5-.5",
    },
];

/// The number of a group, which names its pattern and its rows.
pub const fn number(group: Group) -> usize {
    group as usize
}

/// The patterns of all groups, for the `defs` of an SVG: `fill-0` to `fill-4`.
pub fn patterns() -> String {
    let mut out = String::new();
    for group in Group::ALL {
        let Look { fill, tile, .. } = look(group);
        let number = number(group);
        write!(
            out,
            "<pattern id=\"fill-{number}\" width=\"{TILE}\" height=\"{TILE}\" \
             patternUnits=\"userSpaceOnUse\"><rect width=\"{TILE}\" height=\"{TILE}\" \
             fill=\"{fill}\"/>"
        )
        .expect("a string takes what is written");
        if !tile.is_empty() {
            write!(
                out,
                "<path d=\"{tile}\" fill=\"none\" stroke=\"{INK}\" stroke-width=\"{}\" \
                 stroke-linecap=\"round\" stroke-opacity=\"0.55\"/>",
                stroke_width(group)
            )
            .expect("a string takes what is written");
        }
        out.push_str("</pattern>\n");
    }
    out
}

/// How thick a pattern's strokes are: dots are strokes without length, and thicker.
const fn stroke_width(group: Group) -> &'static str {
    match group {
        Group::Spot => "2.2",
        _ => "1",
    }
}

#[cfg(test)]
mod tests {
    use super::*;

    #[test]
    fn no_two_groups_share_a_sign() {
        let looks = Group::ALL.map(look);
        for (at, one) in looks.iter().enumerate() {
            for other in &looks[..at] {
                assert_ne!(one.name, other.name);
                assert_ne!(one.letter, other.letter);
                assert_ne!(one.fill, other.fill);
                assert_ne!(one.pattern, other.pattern);
                assert_ne!(one.tile, other.tile);
                assert_ne!(one.glyph, other.glyph);
            }
        }
    }

    /// How colour-blind readers of three kinds see red, green and blue light (Machado, Oliveira
    /// and Fernandes, 2009), and all others.
    const EYES: [[[f64; 3]; 3]; 4] = [
        [[1.0, 0.0, 0.0], [0.0, 1.0, 0.0], [0.0, 0.0, 1.0]],
        [
            [0.152286, 1.052583, -0.204868],
            [0.114503, 0.786281, 0.099216],
            [-0.003882, -0.048116, 1.051998],
        ],
        [
            [0.367322, 0.860646, -0.227968],
            [0.280085, 0.672501, 0.047413],
            [-0.011820, 0.042940, 0.968881],
        ],
        [
            [1.255528, -0.076749, -0.178779],
            [-0.078411, 0.930809, 0.147602],
            [0.004733, 0.691367, 0.303900],
        ],
    ];

    /// The light of a colour that is written `#rrggbb`.
    fn light(colour: &str) -> [f64; 3] {
        [1, 3, 5].map(|at| {
            let byte = u8::from_str_radix(&colour[at..at + 2], 16).unwrap();
            let value = f64::from(byte) / 255.0;
            match value <= 0.04045 {
                true => value / 12.92,
                false => ((value + 0.055) / 1.055).powf(2.4),
            }
        })
    }

    fn dot(row: [f64; 3], light: [f64; 3]) -> f64 {
        row.iter().zip(light).map(|(a, b)| a * b).sum()
    }

    /// How bright a light is, for contrast (WCAG 2).
    fn luminance(light: [f64; 3]) -> f64 {
        dot([0.2126, 0.7152, 0.0722], light)
    }

    /// A light by its lightness and two hues (CIE 1976 L*a*b*), in which distances are about
    /// those that are seen.
    fn seen(light: [f64; 3]) -> [f64; 3] {
        let light = light.map(|part| part.clamp(0.0, 1.0));
        let root = |part: f64| match part > 0.008856 {
            true => part.cbrt(),
            false => 7.787 * part + 16.0 / 116.0,
        };
        let x = root(dot([0.4124, 0.3576, 0.1805], light) / 0.9505);
        let y = root(luminance(light));
        let z = root(dot([0.0193, 0.1192, 0.9505], light) / 1.089);
        [116.0 * y - 16.0, 500.0 * (x - y), 200.0 * (y - z)]
    }

    /// Every two groups.
    fn pairs() -> impl Iterator<Item = (Group, Group)> {
        let all = Group::ALL.into_iter();
        all.flat_map(|one| Group::ALL.map(|other| (one, other)))
            .filter(|(one, other)| one < other)
    }

    #[test]
    fn colour_blind_readers_tell_the_fills_apart() {
        for eye in EYES {
            let see = |group| {
                let light = light(look(group).fill);
                seen(eye.map(|row| dot(row, light)))
            };
            for (one, other) in pairs() {
                let squares = see(one).into_iter().zip(see(other));
                let far = squares.map(|(a, b)| (a - b).powi(2)).sum::<f64>().sqrt();
                assert!(far >= 20.0, "{one:?} {other:?} {far}");
            }
        }
    }

    #[test]
    fn a_print_without_colours_tells_the_fills_apart() {
        let lightness = |group| seen(light(look(group).fill))[0];
        for (one, other) in pairs() {
            let far = (lightness(one) - lightness(other)).abs();
            assert!(far >= 9.0, "{one:?} {other:?} {far}");
        }
    }

    #[test]
    fn ink_is_readable_on_every_fill() {
        let ink = luminance(light(INK));
        for group in Group::ALL {
            let contrast = (luminance(light(look(group).fill)) + 0.05) / (ink + 0.05);
            assert!(contrast >= 4.5, "{group:?} {contrast}");
        }
    }
}
