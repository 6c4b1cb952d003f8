//! What is sent back: a status, headers that keep the page to itself, and a body.

/// Where the page may load from, which is here alone, and that nothing may hold it in a frame.
const POLICY: &str = "default-src 'none'; script-src 'self'; style-src 'self'; \
                      img-src 'self'; connect-src 'self'; base-uri 'none'; form-action 'none'; \
                      frame-ancestors 'none'";

/// The kinds of body.
pub mod kind {
    /// A page.
    pub const HTML: &str = "text/html; charset=utf-8";
    /// A style sheet.
    pub const CSS: &str = "text/css; charset=utf-8";
    /// A script.
    pub const SCRIPT: &str = "text/javascript; charset=utf-8";
    /// Data for the script.
    pub const JSON: &str = "application/json";
    /// A picture.
    pub const SVG: &str = "image/svg+xml";
    /// Words.
    pub const TEXT: &str = "text/plain; charset=utf-8";
}

/// A reply.
#[derive(Clone, Debug, PartialEq, Eq)]
pub struct Reply {
    /// The status, one of those that [`reason`] knows.
    pub status: u16,
    /// The kind of its body.
    pub kind: &'static str,
    /// The body.
    pub body: Vec<u8>,
}

impl Reply {
    /// A reply that has what was asked for.
    pub fn found(kind: &'static str, body: impl Into<Vec<u8>>) -> Self {
        Self {
            status: 200,
            kind,
            body: body.into(),
        }
    }

    /// A reply that says in words why there is none.
    pub fn refused(status: u16, words: &str) -> Self {
        Self {
            status,
            kind: kind::TEXT,
            body: format!("{words}\n").into_bytes(),
        }
    }

    /// The bytes that are sent; the body is left out where only the head was asked for.
    pub fn to_bytes(&self, head_only: bool) -> Vec<u8> {
        let Self { status, kind, body } = self;
        let allow = match status {
            405 => "Allow: GET, HEAD\r\n",
            _ => "",
        };
        let head = format!(
            "HTTP/1.1 {status} {}\r\n\
             Content-Type: {kind}\r\n\
             Content-Length: {}\r\n\
             {allow}\
             Connection: close\r\n\
             Cache-Control: no-store\r\n\
             Content-Security-Policy: {POLICY}\r\n\
             X-Content-Type-Options: nosniff\r\n\
             X-Frame-Options: DENY\r\n\
             Referrer-Policy: no-referrer\r\n\
             Cross-Origin-Resource-Policy: same-origin\r\n\
             Cross-Origin-Opener-Policy: same-origin\r\n\r\n",
            reason(*status),
            body.len()
        );
        let mut bytes = head.into_bytes();
        if !head_only {
            bytes.extend_from_slice(body);
        }
        bytes
    }
}

/// The words that go with a status.
const fn reason(status: u16) -> &'static str {
    match status {
        200 => "OK",
        400 => "Bad Request",
        403 => "Forbidden",
        404 => "Not Found",
        405 => "Method Not Allowed",
        408 => "Request Timeout",
        414 => "URI Too Long",
        431 => "Request Header Fields Too Large",
        503 => "Service Unavailable",
        505 => "HTTP Version Not Supported",
        _ => "Unknown",
    }
}

#[cfg(test)]
mod tests {
    use super::*;

    #[test]
    fn a_head_has_the_length_of_the_body_it_leaves_out() {
        let reply = Reply::found(kind::TEXT, "four");
        let whole = String::from_utf8(reply.to_bytes(false)).unwrap();
        let head = String::from_utf8(reply.to_bytes(true)).unwrap();
        assert_eq!(whole, format!("{head}four"));
        assert!(head.ends_with("\r\n\r\n"));
        assert!(head.contains("\r\nContent-Length: 4\r\n"));
        assert!(!head.contains("Allow"));
        let refused = Reply::refused(405, "no");
        assert!(refused.to_bytes(true).windows(6).any(|at| at == b"Allow:"));
    }
}
