//! The query of a request, read as the options of a command are: `view=0,9,0,9&stop=3` is
//! `--view=0,9,0,9 --stop=3`.

use std::ffi::OsString;

use crate::args::{usage, Args, Options};
use crate::Trouble;

/// The most fields of a query.
const MOST_FIELDS: usize = 8;

/// The longest value in bytes.
const MOST_VALUE_BYTES: usize = 64;

/// The value of a field that stands alone, a flag.
const YES: &str = "1";

/// Reads a query by the options that its path takes.
///
/// # Errors
///
/// [`Trouble::Usage`] where a field is none of these, is there twice, or its value is too long
/// or no text.
pub fn read(query: &str, options: Options) -> Result<Args, Trouble> {
    let fields = query.split('&').filter(|field| !field.is_empty());
    if fields.clone().count() > MOST_FIELDS {
        return Err(usage(format!("a query has at most {MOST_FIELDS} fields")));
    }
    let words: Result<Vec<OsString>, Trouble> =
        fields.map(|field| option(field, options)).collect();
    Args::read(&words?, options)
}

/// A field as an option.
fn option(field: &str, options: Options) -> Result<OsString, Trouble> {
    let (name, value) = field.split_once('=').unwrap_or((field, YES));
    let value = decoded(value)?;
    let name = format!("--{name}");
    if options.flags.contains(&name.as_str()) {
        return match value.as_str() {
            YES => Ok(name.into()),
            _ => Err(usage(format!("{name} is there with 1, or not at all"))),
        };
    }
    Ok(format!("{name}={value}").into())
}

/// A value with its `%` and two digits as the bytes that they are.
fn decoded(value: &str) -> Result<String, Trouble> {
    let wrong = || usage("a value is text of at most 64 bytes".to_owned());
    if value.len() > 3 * MOST_VALUE_BYTES {
        return Err(wrong());
    }
    let mut bytes = Vec::new();
    let mut rest = value.as_bytes();
    while let Some((&byte, behind)) = rest.split_first() {
        let (byte, behind) = match (byte, behind) {
            (b'%', [high, low, behind @ ..]) => {
                (hexadecimal(*high, *low).ok_or_else(wrong)?, behind)
            }
            (b'%', _) => return Err(wrong()),
            _ => (byte, behind),
        };
        bytes.push(byte);
        rest = behind;
    }
    match String::from_utf8(bytes) {
        Ok(text) if text.len() <= MOST_VALUE_BYTES && !text.contains(char::is_control) => Ok(text),
        _ => Err(wrong()),
    }
}

/// The byte of two hexadecimal digits.
fn hexadecimal(high: u8, low: u8) -> Option<u8> {
    let digit = |digit: u8| char::from(digit).to_digit(16);
    u8::try_from(16 * digit(high)? + digit(low)?).ok()
}

#[cfg(test)]
mod tests {
    use super::*;

    const OPTIONS: Options = Options {
        values: &["--view", "--stop"],
        flags: &["--hidden"],
    };

    #[test]
    fn a_query_is_read_as_options() {
        let args = read("view=1%2C2,3,4&hidden=1&stop=5", OPTIONS).unwrap();
        assert_eq!(args.value("--view"), Some("1,2,3,4"));
        assert_eq!(args.value("--stop"), Some("5"));
        assert!(args.flag("--hidden"));
        assert!(read("hidden", OPTIONS).unwrap().flag("--hidden"));
        assert!(!read("", OPTIONS).unwrap().flag("--hidden"));
    }

    #[test]
    fn what_is_no_query_is_refused() {
        let long = format!("stop={}", "1".repeat(65));
        let longer = format!("stop={}", "%31".repeat(65));
        let many = "stop=1&".repeat(9);
        for query in [
            "x=1",
            "=1",
            "stop=1&stop=1",
            "hidden=0",
            "hidden=yes",
            "stop=%",
            "stop=%3",
            "stop=%zz",
            "stop=%ff",
            "stop=%00",
            "stop=%0a",
            "--stop=1",
            &long,
            &longer,
            &many,
        ] {
            assert!(
                matches!(read(query, OPTIONS), Err(Trouble::Usage(_))),
                "{query}"
            );
        }
    }
}
