//! Reads the head of a request: its line and its headers, within bounds, and nothing behind them.

use std::io::{self, Read};

/// The longest head in bytes, the empty line at its end included.
pub const MOST_HEAD_BYTES: usize = 8_192;

/// The longest request line in bytes, without its end.
pub const MOST_LINE_BYTES: usize = 2_048;

/// The most headers.
pub const MOST_HEADERS: usize = 64;

/// What is read of a request.
#[derive(Clone, Debug, PartialEq, Eq)]
pub struct Request {
    /// Whether the body of the answer is left out.
    pub head_only: bool,
    /// The path, as it was sent.
    pub path: String,
    /// The query behind `?`, as it was sent; empty where there is none.
    pub query: String,
    /// The value of the only `Host` header.
    pub host: String,
}

/// Why no request was read. Each case but the last has an answer.
#[derive(Clone, Copy, Debug, PartialEq, Eq)]
pub enum Unread {
    /// The head is no request, or has what no request here has; the words say what.
    Bad(&'static str),
    /// The method is not GET or HEAD.
    Method,
    /// The request line is too long.
    LongLine,
    /// The headers are too long or too many.
    LongHead,
    /// The version is not 1.0 or 1.1 of HTTP.
    Version,
    /// The head did not come in time.
    Late,
    /// The other side closed or broke the connection before the head was whole.
    Gone,
}

/// Reads a request's head and takes it apart. Time is the reader's: it answers
/// [`io::ErrorKind::TimedOut`] or [`io::ErrorKind::WouldBlock`] where it is up.
///
/// # Errors
///
/// Where there is no request within the bounds.
pub fn read(from: &mut impl Read) -> Result<Request, Unread> {
    parse(&read_head(from)?)
}

/// Reads up to the empty line, at most [`MOST_HEAD_BYTES`].
fn read_head(from: &mut impl Read) -> Result<Vec<u8>, Unread> {
    let mut head = Vec::new();
    let mut piece = [0; 1_024];
    loop {
        let room = piece.len().min(MOST_HEAD_BYTES - head.len());
        let read = match from.read(&mut piece[..room]) {
            Ok(0) => return Err(Unread::Gone),
            Ok(read) => read,
            Err(error) if error.kind() == io::ErrorKind::Interrupted => continue,
            Err(error) => return Err(broken(&error)),
        };
        let searched = head.len();
        head.extend_from_slice(&piece[..read]);
        if let Some(end) = end_of_head(&head, searched) {
            head.truncate(end);
            return Ok(head);
        }
        ask_bounds(&head)?;
    }
}

fn broken(error: &io::Error) -> Unread {
    match error.kind() {
        io::ErrorKind::TimedOut | io::ErrorKind::WouldBlock => Unread::Late,
        _ => Unread::Gone,
    }
}

/// Where the empty line ends, if it is there. Bytes before `searched` were looked at already.
fn end_of_head(head: &[u8], searched: usize) -> Option<usize> {
    let from = searched.saturating_sub(3);
    let at = head[from..].windows(4).position(|end| end == b"\r\n\r\n")?;
    Some(from + at + 4)
}

/// Asks whether what has come of a head may still grow.
fn ask_bounds(head: &[u8]) -> Result<(), Unread> {
    let first_line = head.iter().take_while(|&&byte| byte != b'\n').count();
    if first_line > MOST_LINE_BYTES + 1 {
        return Err(Unread::LongLine);
    }
    if head.len() >= MOST_HEAD_BYTES {
        return Err(Unread::LongHead);
    }
    Ok(())
}

/// Takes a whole head apart.
fn parse(head: &[u8]) -> Result<Request, Unread> {
    let text = std::str::from_utf8(head).map_err(|_| Unread::Bad("the head is not text"))?;
    let text = text.strip_suffix("\r\n\r\n").unwrap_or(text);
    let mut lines = text.split("\r\n");
    let line = lines.next().unwrap_or_default();
    if line.len() > MOST_LINE_BYTES {
        return Err(Unread::LongLine);
    }
    let (head_only, target) = request_line(line)?;
    let host = the_host(lines)?;
    let (path, query) = target.split_once('?').unwrap_or((target, ""));
    Ok(Request {
        head_only,
        path: path.to_owned(),
        query: query.to_owned(),
        host: host.to_owned(),
    })
}

/// The method and the target of a request line.
fn request_line(line: &str) -> Result<(bool, &str), Unread> {
    let mut words = line.split(' ');
    let (method, target, version) = match (words.next(), words.next(), words.next(), words.next()) {
        (Some(method), Some(target), Some(version), None) => (method, target, version),
        _ => return Err(Unread::Bad("the request line is not three words")),
    };
    if method.is_empty() || !method.bytes().all(is_token) {
        return Err(Unread::Bad("the method is no word"));
    }
    if !matches!(version, "HTTP/1.1" | "HTTP/1.0") {
        return Err(match version.starts_with("HTTP/") {
            true => Unread::Version,
            false => Unread::Bad("the version is none of HTTP"),
        });
    }
    let head_only = match method {
        "GET" => false,
        "HEAD" => true,
        _ => return Err(Unread::Method),
    };
    if !target.starts_with('/') || !target.bytes().all(|byte| byte.is_ascii_graphic()) {
        return Err(Unread::Bad("the target is no path"));
    }
    Ok((head_only, target))
}

/// Looks through the headers: there is one host, and nothing announces a body.
fn the_host<'a>(lines: impl Iterator<Item = &'a str>) -> Result<&'a str, Unread> {
    let mut host = None;
    for (count, line) in lines.enumerate() {
        if count >= MOST_HEADERS {
            return Err(Unread::LongHead);
        }
        let (name, value) = header(line)?;
        if name.eq_ignore_ascii_case("host") {
            if host.replace(value).is_some() {
                return Err(Unread::Bad("there is a second host"));
            }
        } else if name.eq_ignore_ascii_case("transfer-encoding")
            || name.eq_ignore_ascii_case("content-length") && value != "0"
        {
            return Err(Unread::Bad("the request has a body"));
        }
    }
    host.ok_or(Unread::Bad("there is no host"))
}

/// The name and the value of a header.
fn header(line: &str) -> Result<(&str, &str), Unread> {
    let (name, value) = line
        .split_once(':')
        .ok_or(Unread::Bad("a header has no colon"))?;
    if name.is_empty() || !name.bytes().all(is_token) {
        return Err(Unread::Bad("the name of a header is no word"));
    }
    let value = value.trim_matches([' ', '\t']);
    if value
        .chars()
        .any(|character| character.is_control() && character != '\t')
    {
        return Err(Unread::Bad("a header has a control character"));
    }
    Ok((name, value))
}

/// Whether a byte may stand in a method's or a header's name.
fn is_token(byte: u8) -> bool {
    byte.is_ascii_alphanumeric() || b"!#$%&'*+-.^_`|~".contains(&byte)
}

#[cfg(test)]
mod tests {
    use super::*;

    fn request(text: &str) -> Result<Request, Unread> {
        read(&mut text.as_bytes())
    }

    fn get(target: &str) -> String {
        format!("GET {target} HTTP/1.1\r\nHost: localhost\r\n\r\n")
    }

    #[test]
    fn a_request_is_taken_apart() {
        let read =
            request("HEAD /view?x=1?y HTTP/1.1\r\nhOST:\t localhost:80 \r\nA: b:c\r\n\r\nrest");
        let expected = Request {
            head_only: true,
            path: "/view".to_owned(),
            query: "x=1?y".to_owned(),
            host: "localhost:80".to_owned(),
        };
        assert_eq!(read, Ok(expected));
        assert_eq!(request(&get("/")).unwrap().query, "");
    }

    #[test]
    fn a_head_that_comes_byte_by_byte_is_the_same() {
        struct Drop<'a>(&'a [u8]);
        impl Read for Drop<'_> {
            fn read(&mut self, out: &mut [u8]) -> io::Result<usize> {
                let length = self.0.len().min(out.len()).min(1);
                let (now, later) = self.0.split_at(length);
                out[..length].copy_from_slice(now);
                self.0 = later;
                Ok(length)
            }
        }
        let text = get("/why?mark=3");
        assert_eq!(read(&mut Drop(text.as_bytes())), request(&text));
    }

    #[test]
    fn what_is_no_request_is_told() {
        let bad = |text: &str| {
            let read = request(text);
            assert!(matches!(read, Err(Unread::Bad(_))), "{text:?}: {read:?}");
        };
        bad("\r\n\r\n");
        bad("GET\r\n\r\n");
        bad("GET / HTTP/1.1 \r\nHost: a\r\n\r\n");
        bad("GET  / HTTP/1.1\r\nHost: a\r\n\r\n");
        bad("GET / SPDY/3\r\nHost: a\r\n\r\n");
        bad("G(T / HTTP/1.1\r\nHost: a\r\n\r\n");
        bad("GET http://localhost/ HTTP/1.1\r\nHost: a\r\n\r\n");
        bad("GET * HTTP/1.1\r\nHost: a\r\n\r\n");
        bad("GET /\t HTTP/1.1\r\nHost: a\r\n\r\n");
        bad("GET /é HTTP/1.1\r\nHost: a\r\n\r\n");
        bad("GET / HTTP/1.1\r\n\r\n");
        bad("GET / HTTP/1.1\r\nHost: a\r\nHost: a\r\n\r\n");
        bad("GET / HTTP/1.1\r\nHost : a\r\n\r\n");
        bad("GET / HTTP/1.1\r\nHost: a\r\n folded: b\r\n\r\n");
        bad("GET / HTTP/1.1\r\nHost: a\r\nnothing\r\n\r\n");
        bad("GET / HTTP/1.1\nHost: a\n\r\n\r\n");
        bad("GET / HTTP/1.1\r\nHost: a\0b\r\n\r\n");
        bad("GET / HTTP/1.1\r\nHost: a\r\nContent-Length: 5\r\n\r\nhello");
        bad("GET / HTTP/1.1\r\nHost: a\r\nTransfer-Encoding: chunked\r\n\r\n");
        assert!(read(&mut &b"GET /\xff HTTP/1.1\r\nHost: a\r\n\r\n"[..]).is_err());
        assert!(request("GET / HTTP/1.1\r\nHost: a\r\nContent-Length: 0\r\n\r\n").is_ok());
    }

    #[test]
    fn other_methods_and_versions_have_their_answers() {
        for method in [
            "POST", "PUT", "DELETE", "OPTIONS", "TRACE", "CONNECT", "get",
        ] {
            let text = format!("{method} / HTTP/1.1\r\nHost: a\r\n\r\n");
            assert_eq!(request(&text), Err(Unread::Method));
        }
        assert_eq!(
            request("GET / HTTP/2.0\r\nHost: a\r\n\r\n"),
            Err(Unread::Version)
        );
    }

    #[test]
    fn a_line_is_bounded() {
        let room = MOST_LINE_BYTES - "GET / HTTP/1.1".len();
        assert!(request(&get(&format!("/{}", "a".repeat(room)))).is_ok());
        let long = format!("/{}", "a".repeat(room + 1));
        assert_eq!(request(&get(&long)), Err(Unread::LongLine));
        let endless = "a".repeat(100_000);
        assert_eq!(request(&endless), Err(Unread::LongLine));
    }

    #[test]
    fn headers_are_bounded_in_bytes_and_number() {
        let with = |headers: &str| request(&format!("GET / HTTP/1.1\r\nHost: a\r\n{headers}\r\n"));
        assert!(with(&"A: b\r\n".repeat(MOST_HEADERS - 1)).is_ok());
        assert_eq!(
            with(&"A: b\r\n".repeat(MOST_HEADERS)),
            Err(Unread::LongHead)
        );
        let large = format!("A: {}\r\n", "b".repeat(MOST_HEAD_BYTES));
        assert_eq!(with(&large), Err(Unread::LongHead));
    }

    #[test]
    fn a_head_that_ends_early_or_late_is_told() {
        assert_eq!(request(""), Err(Unread::Gone));
        assert_eq!(request("GET / HTTP/1.1\r\nHost: a\r\n"), Err(Unread::Gone));
        struct Slow;
        impl Read for Slow {
            fn read(&mut self, _: &mut [u8]) -> io::Result<usize> {
                Err(io::ErrorKind::TimedOut.into())
            }
        }
        assert_eq!(read(&mut Slow), Err(Unread::Late));
    }

    #[test]
    fn no_bytes_make_it_fall() {
        let mut seed = 1_u64;
        for _ in 0..20_000 {
            let mut bytes = get("/a?b=c").into_bytes();
            for _ in 0..3 {
                seed = seed.wrapping_mul(6_364_136_223_846_793_005).wrapping_add(1);
                let at = (seed >> 33) as usize % bytes.len();
                bytes[at] = (seed >> 56) as u8;
            }
            let _ = read(&mut &bytes[..]);
        }
    }
}
