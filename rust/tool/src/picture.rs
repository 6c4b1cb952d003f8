//! A picture of a view, as SVG: labels to scale, the hidden marks where asked for, a legend and
//! the counts by group.

use std::ffi::OsString;

use rollmap::View;

use crate::args::{parsed, usage, Args, Options, VIEW_OPTIONS};
use crate::{files, Reel, Status, Trouble};

/// Writes formatted text to a string, which takes all of it.
macro_rules! put {
    ($out:expr, $($text:tt)*) => {
        std::fmt::Write::write_fmt($out, format_args!($($text)*))
            .expect("a string takes what is written")
    };
}

pub mod frame;
pub mod look;
mod numbers;
pub mod scene;
pub mod svg;
pub mod xml;

use scene::{Radii, Scene};

/// The page of `rollmap help picture`.
pub const HELP: &str = include_str!("picture/help.txt");

/// What `rollmap picture` takes besides the sheet.
const OPTIONS: Options = Options {
    values: &[
        VIEW_OPTIONS[0],
        VIEW_OPTIONS[1],
        VIEW_OPTIONS[2],
        VIEW_OPTIONS[3],
        "--size",
        "--output",
    ],
    flags: &["--hidden", "--afresh"],
};

/// The size of a picture in pixels.
#[derive(Clone, Copy, Debug, PartialEq, Eq)]
pub struct Size {
    /// How wide it is.
    pub width: u32,
    /// How high it is.
    pub height: u32,
}

impl Size {
    /// The size where none is asked for.
    pub const USUAL: Self = Self {
        width: 1_200,
        height: 800,
    };

    /// The least size that has room for the legend.
    const LEAST: Self = Self {
        width: 640,
        height: 480,
    };

    /// The largest side.
    const MOST: u32 = 16_384;

    /// Reads a size, `WxH`.
    ///
    /// # Errors
    ///
    /// [`Trouble::Usage`] where it is none, or too small or too large to draw.
    pub fn read(text: &str) -> Result<Self, Trouble> {
        let what = "a size in pixels, such as 1200x800,";
        let Some((width, height)) = text.split_once('x') else {
            return Err(usage(format!("--size: {what} is wanted, and not {text}")));
        };
        let side = |value| parsed::<u32>(value, "--size", what);
        let (width, height) = (side(width)?, side(height)?);
        let Self {
            width: least_width,
            height: least_height,
        } = Self::LEAST;
        let most = Self::MOST;
        if (least_width..=most).contains(&width) && (least_height..=most).contains(&height) {
            return Ok(Self { width, height });
        }
        Err(usage(format!(
            "--size: a picture is {least_width}x{least_height} to {most}x{most} pixels, and not {text}"
        )))
    }
}

/// Draws a view of a reel that is called `name`, with the hidden marks where these are asked for.
///
/// # Errors
///
/// What the library refuses of the view.
pub fn draw(
    reel: &Reel,
    name: &str,
    view: View,
    size: Size,
    hidden: bool,
) -> Result<String, Trouble> {
    let radii = Radii::ask()?;
    let scene = Scene::of(reel, &radii, view, hidden)?;
    Ok(svg::write(&scene, name, size, hidden))
}

/// The view that is drawn: the one that the options name, or else everything at that zoom and
/// turn.
///
/// # Errors
///
/// Where an option is wrong, or the library refuses the view.
pub fn view_of(args: &Args, reel: &Reel) -> Result<View, Trouble> {
    let view = args.view()?;
    match args.value(VIEW_OPTIONS[0]) {
        Some(_) => Ok(view),
        None => scene::everything(reel, &Radii::ask()?, view),
    }
}

/// Runs `rollmap picture`.
///
/// # Errors
///
/// Wrong usage, a file that cannot be read or written, or what the library refuses.
pub fn run(words: &[OsString]) -> Result<Status, Trouble> {
    let mut args = Args::read(&spelled_out(words), OPTIONS)?;
    let sheet = args.word("the sheet")?;
    args.end()?;
    let size = args.value("--size").map_or(Ok(Size::USUAL), Size::read)?;
    let reel = open(&sheet, args.flag("--afresh"))?;
    let view = view_of(&args, &reel)?;
    let picture = draw(&reel, &title_of(&sheet), view, size, args.flag("--hidden"))?;
    let out = args.value("--output").unwrap_or(files::STANDARD);
    files::write(out, picture.as_bytes())?;
    Ok(Status::Fine)
}

/// Opens a sheet: its schedule is judged where it has one, unless it is to be worked out afresh.
///
/// # Errors
///
/// Where the file cannot be read, or the library refuses it.
pub fn open(sheet: &str, afresh: bool) -> Result<Reel, Trouble> {
    let bytes = files::read(sheet)?;
    let opened = match afresh {
        true => Reel::afresh(bytes),
        false => Reel::open(bytes),
    };
    opened.map_err(|trouble| trouble.about(files::name(sheet)))
}

/// What a sheet is called in headings: its file's name without the folder.
pub fn title_of(sheet: &str) -> String {
    let path = std::path::Path::new(files::name(sheet));
    let name = path.file_name().unwrap_or(path.as_os_str());
    name.to_string_lossy().into_owned()
}

/// The words with `-o` written as `--output`.
fn spelled_out(words: &[OsString]) -> Vec<OsString> {
    let mut options = true;
    let spelled = words.iter().map(|word| {
        options &= word != "--";
        match options && word == "-o" {
            true => OsString::from("--output"),
            false => word.clone(),
        }
    });
    spelled.collect()
}

#[cfg(test)]
mod tests {
    use super::*;

    #[test]
    fn a_size_is_two_numbers_within_bounds() {
        let size = Size {
            width: 900,
            height: 700,
        };
        assert_eq!(Size::read("900x700").unwrap(), size);
        for wrong in [
            "",
            "900",
            "900x",
            "x700",
            "639x700",
            "900x479",
            "16385x700",
            "900x-1",
            "9x9x9",
        ] {
            assert!(
                matches!(Size::read(wrong), Err(Trouble::Usage(_))),
                "{wrong}"
            );
        }
    }

    #[test]
    fn o_is_short_for_output() {
        let words = ["a", "-o", "b", "--", "-o"].map(OsString::from);
        let spelled = ["a", "--output", "b", "--", "-o"].map(OsString::from);
        assert_eq!(spelled_out(&words), spelled);
    }

    #[test]
    fn a_title_is_the_name_without_the_folder() {
        assert_eq!(title_of("/a/b/reel.sheet"), "reel.sheet");
        assert_eq!(title_of("-"), "standard input");
    }
}
