//! A connection: reads one request, sends one reply, and closes, all within a time.

use std::io::{self, Read, Write};
use std::net::{Shutdown, TcpStream};
use std::time::{Duration, Instant};

use super::reply::Reply;
use super::request::{self, Request, Unread};

/// How long a client may take.
#[derive(Clone, Copy, Debug)]
pub struct Limits {
    /// For its request, from the moment on that it is connected.
    pub read: Duration,
    /// For the reply, from the moment on that this is ready.
    pub write: Duration,
}

impl Limits {
    /// The usual limits.
    pub const USUAL: Self = Self {
        read: Duration::from_secs(5),
        write: Duration::from_secs(10),
    };
}

/// How long a connection is kept for what the other side still sends, and how much of that is
/// read: closing at once would take the reply from it.
const LINGER: Duration = Duration::from_millis(250);
const LINGER_BYTES: usize = 65_536;

/// A stream that is read and written up to a moment, however slowly the bytes come.
struct Timed<'a> {
    stream: &'a TcpStream,
    end: Instant,
}

impl Timed<'_> {
    fn left(&self) -> io::Result<Duration> {
        let left = self.end.saturating_duration_since(Instant::now());
        match left.is_zero() {
            true => Err(io::ErrorKind::TimedOut.into()),
            false => Ok(left),
        }
    }
}

impl Read for Timed<'_> {
    fn read(&mut self, out: &mut [u8]) -> io::Result<usize> {
        self.stream.set_read_timeout(Some(self.left()?))?;
        let mut stream = self.stream;
        stream.read(out)
    }
}

impl Write for Timed<'_> {
    fn write(&mut self, bytes: &[u8]) -> io::Result<usize> {
        self.stream.set_write_timeout(Some(self.left()?))?;
        let mut stream = self.stream;
        stream.write(bytes)
    }

    fn flush(&mut self) -> io::Result<()> {
        Ok(())
    }
}

/// Handles a connection from its beginning to its end. What goes wrong on the way ends this
/// connection and nothing else.
pub fn handle(
    stream: &TcpStream,
    limits: Limits,
    port: u16,
    answer: impl FnOnce(&Request) -> Reply,
) {
    let mut from = Timed {
        stream,
        end: Instant::now() + limits.read,
    };
    let (reply, head_only) = match request::read(&mut from) {
        Ok(request) if !is_ours(&request.host, port) => (
            Reply::refused(403, "this page is for its own machine"),
            request.head_only,
        ),
        Ok(request) => (answer(&request), request.head_only),
        Err(unread) => match unread_reply(unread) {
            Some(reply) => (reply, false),
            None => return,
        },
    };
    send(stream, limits, &reply.to_bytes(head_only));
}

/// Sends a reply and closes the connection.
pub fn send(stream: &TcpStream, limits: Limits, bytes: &[u8]) {
    let mut to = Timed {
        stream,
        end: Instant::now() + limits.write,
    };
    if to.write_all(bytes).is_ok() && stream.shutdown(Shutdown::Write).is_ok() {
        linger(stream);
    }
}

/// Reads, and drops, what still comes, until the other side closes too or its time is up.
fn linger(stream: &TcpStream) {
    let mut from = Timed {
        stream,
        end: Instant::now() + LINGER,
    };
    let mut piece = [0; 4_096];
    let mut read = 0;
    while read < LINGER_BYTES {
        match from.read(&mut piece) {
            Ok(0) | Err(_) => return,
            Ok(more) => read += more,
        }
    }
}

/// Whether a host is this machine by one of its own names, with our port where it has one. A
/// page from elsewhere that is made to lead here by its name has another host.
fn is_ours(host: &str, port: u16) -> bool {
    let (name, its_port) = match host.split_once(':') {
        Some((name, its_port)) => (name, Some(its_port)),
        None => (host, None),
    };
    let name_is_ours = name == "127.0.0.1" || name.eq_ignore_ascii_case("localhost");
    name_is_ours && its_port.is_none_or(|its_port| its_port == port.to_string())
}

/// What is said where no request was read; nothing to one who has gone.
fn unread_reply(unread: Unread) -> Option<Reply> {
    let (status, words) = match unread {
        Unread::Bad(words) => (400, words),
        Unread::Method => (405, "only GET and HEAD are answered"),
        Unread::LongLine => (414, "the request line is too long"),
        Unread::LongHead => (431, "the headers are too long or too many"),
        Unread::Version => (505, "only HTTP/1.0 and HTTP/1.1 are answered"),
        Unread::Late => (408, "the request did not come in time"),
        Unread::Gone => return None,
    };
    Some(Reply::refused(status, words))
}

#[cfg(test)]
mod tests {
    use super::*;

    #[test]
    fn only_this_machines_own_names_are_ours() {
        for host in [
            "127.0.0.1",
            "localhost",
            "LocalHost",
            "127.0.0.1:81",
            "localhost:81",
        ] {
            assert!(is_ours(host, 81), "{host}");
        }
        for host in [
            "",
            ":81",
            "localhost:",
            "localhost:80",
            "localhost:081",
            "localhost:81:81",
            "a.localhost",
            "localhost.",
            "127.0.0.2",
            "127.1",
            "0.0.0.0",
            "[::1]",
            "example.org",
            "127.0.0.1.example.org",
            "localhost@example.org",
            "localhost:81@example.org",
        ] {
            assert!(!is_ours(host, 81), "{host}");
        }
    }
}
