//! The page's server over the loopback address: whom it answers, what it refuses, and that its
//! answers are the library's. Each server here takes a fixed number of connections.

mod common;

use std::io::{Read, Write};
use std::net::{Ipv4Addr, Shutdown, SocketAddr, TcpStream};
use std::sync::Arc;
use std::thread::{self, JoinHandle};
use std::time::Duration;

use common::{some_view, Drawn, Folder};
use oracle::sample::Generator;
use rollmap::{Turn, View, Zoom};
use rollmap_tool::hold::{hold, Held, Listed};
use rollmap_tool::picture::{draw, Size};
use rollmap_tool::serve::site::{Site, MOST_ROWS};
use rollmap_tool::serve::{Limits, Server, MOST_AT_ONCE};
use rollmap_tool::table::Table;
use rollmap_tool::why::why;
use rollmap_tool::{words, Reel};

// ---- a server, and one who asks it

/// The limits of most tests: long enough for a machine with much else to do.
const LIMITS: Limits = Limits {
    read: Duration::from_secs(20),
    write: Duration::from_secs(20),
};

/// How long a test waits for an answer.
const PATIENCE: Duration = Duration::from_secs(60);

/// A server that takes so many connections.
struct Running {
    address: SocketAddr,
    thread: JoinHandle<()>,
}

impl Running {
    fn new(site: Site, limits: Limits, connections: usize) -> Self {
        let server = Server::bind(0, limits).expect("a port is to be had");
        let address = server.address();
        let site = Arc::new(site);
        let thread = thread::spawn(move || server.take(&site, connections));
        Self { address, thread }
    }

    /// Sees that it took as many as it should.
    fn end(self) {
        self.thread.join().expect("the server did not fall");
    }

    fn connect(&self) -> TcpStream {
        let stream = TcpStream::connect(self.address).expect("it listens");
        stream.set_read_timeout(Some(PATIENCE)).unwrap();
        stream
    }

    /// Sends bytes, and reads to the end of the answer.
    fn send(&self, bytes: &[u8]) -> Answer {
        let mut stream = self.connect();
        // The server may refuse before it has read all.
        let _ = stream.write_all(bytes);
        Answer::read(stream)
    }

    fn get(&self, target: &str) -> Answer {
        let port = self.address.port();
        self.send(format!("GET {target} HTTP/1.1\r\nHost: 127.0.0.1:{port}\r\n\r\n").as_bytes())
    }
}

#[derive(Debug)]
struct Answer {
    status: u16,
    head: String,
    body: String,
}

impl Answer {
    fn read(mut stream: TcpStream) -> Self {
        let mut bytes = Vec::new();
        let _ = stream.read_to_end(&mut bytes);
        let text = String::from_utf8(bytes).expect("the answer is text");
        let (head, body) = text.split_once("\r\n\r\n").expect("the answer has a head");
        let status = head.split(' ').nth(1).expect("there is a status");
        Self {
            status: status.parse().expect("it is a number"),
            head: format!("{head}\r\n"),
            body: body.to_owned(),
        }
    }

    fn header(&self, name: &str) -> Option<&str> {
        let mut lines = self.head.lines();
        lines.find_map(|line| line.strip_prefix(name)?.strip_prefix(": "))
    }

    fn is(&self, status: u16, words: &str) {
        assert_eq!(self.status, status, "{self:?}");
        assert!(self.body.contains(words), "{self:?}");
    }

    /// The data of an answer that has some.
    fn json(&self) -> Value {
        assert_eq!(self.status, 200, "{self:?}");
        assert_eq!(self.header("Content-Type"), Some("application/json"));
        Value::read(&self.body)
    }
}

// ---- reading JSON

#[derive(Clone, Debug, PartialEq)]
enum Value {
    Null,
    Truth(bool),
    Number(i64),
    Text(String),
    List(Vec<Value>),
    Object(Vec<(String, Value)>),
}

impl Value {
    fn read(text: &str) -> Self {
        let mut reader = Reader(text);
        let value = reader.value();
        assert_eq!(reader.0, "", "one value is there");
        value
    }

    fn get(&self, name: &str) -> &Value {
        let Self::Object(members) = self else {
            panic!("no object: {self:?}");
        };
        let found = members.iter().find(|(member, _)| member == name);
        &found
            .unwrap_or_else(|| panic!("{name} is missing: {self:?}"))
            .1
    }

    fn list(&self) -> &[Value] {
        match self {
            Self::List(values) => values,
            _ => panic!("no list: {self:?}"),
        }
    }

    fn number(&self) -> i64 {
        match self {
            Self::Number(number) => *number,
            _ => panic!("no number: {self:?}"),
        }
    }

    fn text(&self) -> &str {
        match self {
            Self::Text(text) => text,
            _ => panic!("no text: {self:?}"),
        }
    }

    fn numbers(&self) -> Vec<i64> {
        self.list().iter().map(Self::number).collect()
    }

    fn texts(&self) -> Vec<&str> {
        self.list().iter().map(Self::text).collect()
    }
}

/// What is left of a JSON text. Spaces between values are not taken: none are written.
struct Reader<'a>(&'a str);

impl Reader<'_> {
    fn take(&mut self, start: &str) -> bool {
        let rest = self.0.strip_prefix(start);
        self.0 = rest.unwrap_or(self.0);
        rest.is_some()
    }

    fn value(&mut self) -> Value {
        if self.take("null") {
            return Value::Null;
        }
        if self.take("true") {
            return Value::Truth(true);
        }
        if self.take("false") {
            return Value::Truth(false);
        }
        if self.take("[") {
            return Value::List(self.many("]", Self::value));
        }
        if self.take("{") {
            return Value::Object(self.many("}", Self::member));
        }
        if self.0.starts_with('"') {
            return Value::Text(self.string());
        }
        let end = self.0.find(|it: char| it != '-' && !it.is_ascii_digit());
        let (number, rest) = self.0.split_at(end.unwrap_or(self.0.len()));
        self.0 = rest;
        Value::Number(number.parse().expect("it is a number"))
    }

    fn many<T>(&mut self, close: &str, mut one: impl FnMut(&mut Self) -> T) -> Vec<T> {
        let mut all = Vec::new();
        if self.take(close) {
            return all;
        }
        loop {
            all.push(one(self));
            if self.take(close) {
                return all;
            }
            assert!(self.take(","), "a comma stands between values: {}", self.0);
        }
    }

    fn member(&mut self) -> (String, Value) {
        let name = self.string();
        assert!(self.take(":"));
        (name, self.value())
    }

    fn string(&mut self) -> String {
        assert!(self.take("\""));
        let mut text = String::new();
        loop {
            let next = self.0.chars().next().expect("a string ends");
            self.0 = &self.0[next.len_utf8()..];
            match next {
                '"' => return text,
                '\\' => text.push(self.escaped()),
                _ => {
                    assert!(!next.is_control());
                    text.push(next);
                }
            }
        }
    }

    fn escaped(&mut self) -> char {
        if self.take("u") {
            let (code, rest) = self.0.split_at(4);
            self.0 = rest;
            let code = u32::from_str_radix(code, 16).expect("four digits follow");
            return char::from_u32(code).expect("it is a character");
        }
        for (written, meant) in [("\"", '"'), ("\\", '\\'), ("n", '\n')] {
            if self.take(written) {
                return meant;
            }
        }
        panic!("no such escape: {}", self.0);
    }
}

// ---- reels

fn small_reel() -> Reel {
    let mark = |x, priority| rollmap::Mark {
        x,
        y: 0,
        radius: 10,
        priority,
        kind: 160,
        tag: 0,
    };
    let marks = rollmap::marks_to_vec(&[mark(0, 9), mark(100, 5)]);
    let sheet = rollmap::assemble_to_vec(&[(rollmap::Code::Marks, &marks)]);
    Reel::open(sheet.expect("the marks are right")).expect("the sheet is right")
}

fn small(connections: usize) -> Running {
    limited(LIMITS, connections)
}

fn limited(limits: Limits, connections: usize) -> Running {
    let site = Site::new(small_reel(), "small.sheet", None).expect("there is a site");
    Running::new(site, limits, connections)
}

/// A view as a query.
fn query(view: View) -> String {
    let View { x0, x1, y0, y1, .. } = view;
    let zoom = match view.zoom {
        Zoom::Stop(stop) => format!("stop={stop}"),
        Zoom::Wheel(_) => format!("zoom={}/64", words::in_64ths(view.zoom)),
    };
    format!(
        "view={x0},{x1},{y0},{y1}&{zoom}&turn={}",
        view.turn.quarters()
    )
}

// ---- whom it answers

#[test]
fn it_listens_on_the_loopback_address_alone() {
    let server = Server::bind(0, LIMITS).unwrap();
    assert_eq!(server.address().ip(), Ipv4Addr::LOCALHOST);
    assert_ne!(server.address().port(), 0);
    let port = server.address().port();
    assert!(Server::bind(port, LIMITS).is_err(), "the port is taken");
}

#[test]
fn its_fixed_paths_are_there_and_no_others() {
    let fixed = [
        ("/", "text/html; charset=utf-8"),
        ("/page.css", "text/css; charset=utf-8"),
        ("/page.js", "text/javascript; charset=utf-8"),
        ("/view?stop=3", "application/json"),
        ("/why?mark=1", "application/json"),
        ("/hold", "application/json"),
        ("/picture.svg", "image/svg+xml"),
    ];
    let others = [
        "/index.html",
        "/page.html",
        "//",
        "/view/",
        "/View",
        "/../Cargo.toml",
        "/%2e%2e/",
        "/etc/passwd",
        "/page.css/",
        "/favicon.ico",
        "/./",
        "/%2f",
        "/serve.rs",
    ];
    let running = small(fixed.len() + others.len());
    for (path, kind) in fixed {
        let answer = running.get(path);
        assert_eq!(
            (answer.status, answer.header("Content-Type")),
            (200, Some(kind)),
            "{path}"
        );
        assert!(!answer.body.is_empty());
    }
    for path in others {
        running.get(path).is(404, "nothing under this path");
    }
    running.end();
}

#[test]
fn only_get_and_head_are_answered() {
    let methods = [
        "POST", "PUT", "DELETE", "OPTIONS", "PATCH", "TRACE", "CONNECT", "get", "QUERY",
    ];
    let running = small(methods.len() + 2);
    for method in methods {
        let answer =
            running.send(format!("{method} / HTTP/1.1\r\nHost: localhost\r\n\r\n").as_bytes());
        answer.is(405, "only GET and HEAD");
        assert_eq!(answer.header("Allow"), Some("GET, HEAD"));
    }
    let whole = running.get("/page.css");
    let head = running.send(b"HEAD /page.css HTTP/1.1\r\nHost: localhost\r\n\r\n");
    assert_eq!((head.status, head.body.as_str()), (200, ""));
    assert_eq!(head.head, whole.head);
    let length = whole.body.len().to_string();
    assert_eq!(head.header("Content-Length"), Some(length.as_str()));
    running.end();
}

#[test]
fn only_this_machines_own_names_are_hosts() {
    let ours = ["127.0.0.1", "localhost", "LOCALHOST"];
    let others = [
        "example.org",
        "127.0.0.1.example.org",
        "0.0.0.0",
        "[::1]",
        "localhost:1",
        "127.0.0.2",
        "",
    ];
    let running = small(2 * ours.len() + others.len() + 2);
    let port = running.address.port();
    let ask =
        |host: &str| running.send(format!("GET / HTTP/1.1\r\nHost: {host}\r\n\r\n").as_bytes());
    for host in ours {
        ask(host).is(200, "<!doctype html>");
        ask(&format!("{host}:{port}")).is(200, "<!doctype html>");
    }
    for host in others {
        ask(host).is(403, "its own machine");
    }
    running.send(b"GET / HTTP/1.1\r\n\r\n").is(400, "no host");
    running
        .send(b"GET / HTTP/1.1\r\nHost: localhost\r\nHost: example.org\r\n\r\n")
        .is(400, "second host");
    running.end();
}

#[test]
fn every_answer_keeps_the_page_to_itself() {
    let requests = [
        "GET / HTTP/1.1\r\nHost: localhost\r\n\r\n",
        "GET /view HTTP/1.1\r\nHost: localhost\r\n\r\n",
        "GET /picture.svg HTTP/1.1\r\nHost: localhost\r\n\r\n",
        "GET /nothing HTTP/1.1\r\nHost: localhost\r\n\r\n",
        "GET /view?x=1 HTTP/1.1\r\nHost: localhost\r\n\r\n",
        "POST / HTTP/1.1\r\nHost: localhost\r\n\r\n",
        "GET / HTTP/1.1\r\nHost: example.org\r\n\r\n",
        "nonsense\r\n\r\n",
    ];
    let running = small(requests.len());
    for request in requests {
        let answer = running.send(request.as_bytes());
        let policy = answer.header("Content-Security-Policy").unwrap();
        assert!(policy.starts_with("default-src 'none'; "), "{policy}");
        assert!(
            !policy.contains("unsafe") && !policy.contains('*'),
            "{policy}"
        );
        assert_eq!(answer.header("Cache-Control"), Some("no-store"));
        assert_eq!(answer.header("X-Content-Type-Options"), Some("nosniff"));
        assert_eq!(answer.header("Connection"), Some("close"));
        assert_eq!(
            answer.header("Cross-Origin-Resource-Policy"),
            Some("same-origin")
        );
        assert_eq!(answer.header("Access-Control-Allow-Origin"), None);
    }
    running.end();
}

// ---- hostile ones

#[test]
fn what_is_too_long_is_refused() {
    let long = |length: usize| "a".repeat(length);
    let running = small(5);
    running
        .get(&format!("/{}", long(3_000)))
        .is(414, "too long");
    running.send(long(1_000_000).as_bytes()).is(414, "too long");
    let headers = "A: b\r\n".repeat(100);
    let head = format!("GET / HTTP/1.1\r\nHost: localhost\r\n{headers}\r\n");
    running.send(head.as_bytes()).is(431, "too many");
    let head = format!(
        "GET / HTTP/1.1\r\nHost: localhost\r\nA: {}\r\n\r\n",
        long(100_000)
    );
    running.send(head.as_bytes()).is(431, "too long");
    running.get("/page.css").is(200, "");
    running.end();
}

#[test]
fn what_is_no_request_is_refused() {
    let requests: [&[u8]; 7] = [
        b"\r\n\r\n",
        b"GET /\r\n\r\n",
        b"\x16\x03\x01\x02\x00\x01\x00\r\n\r\n",
        b"GET / HTTP/1.1\r\nHost: localhost\r\nContent-Length: 9\r\n\r\n",
        b"GET / HTTP/1.1\r\nHost: localhost\r\nTransfer-Encoding: chunked\r\n\r\n",
        b"GET http://localhost/ HTTP/1.1\r\nHost: localhost\r\n\r\n",
        b"GET /\xff\xfe HTTP/1.1\r\nHost: localhost\r\n\r\n",
    ];
    let running = small(requests.len() + 2);
    for request in requests {
        running.send(request).is(400, "");
    }
    running
        .send(b"GET / HTTP/3.0\r\nHost: localhost\r\n\r\n")
        .is(505, "");
    running.get("/").is(200, "");
    running.end();
}

#[test]
fn a_slow_client_is_let_go_and_keeps_nobody_waiting() {
    let limits = Limits {
        read: Duration::from_millis(1_500),
        ..LIMITS
    };
    let running = limited(limits, 3);
    // One that says nothing, and one that says a byte now and then and would go on with it.
    let silent = running.connect();
    let dripping = running.connect();
    running.get("/page.css").is(200, "");
    assert!(
        drips_until_answered(&dripping),
        "bytes that come do not give more time"
    );
    Answer::read(silent).is(408, "in time");
    dripping.set_read_timeout(Some(PATIENCE)).unwrap();
    Answer::read(dripping).is(408, "in time");
    running.end();
}

/// Sends a head that does not end, byte by byte for some ten times the limit at most, and tells
/// whether an answer came meanwhile.
fn drips_until_answered(mut stream: &TcpStream) -> bool {
    let pause = Duration::from_millis(50);
    stream.set_read_timeout(Some(pause)).unwrap();
    let head = b"GET / HTTP/1.1\r\nHost: localhost\r\nA: ";
    head.iter().cycle().take(300).any(|byte| {
        let gone = stream.write_all(&[*byte]).is_err();
        gone || stream.peek(&mut [0]).is_ok_and(|read| read > 0)
    })
}

#[test]
fn one_who_goes_early_does_no_harm() {
    let running = small(12);
    for _ in 0..5 {
        drop(running.connect());
        let mut stream = running.connect();
        stream.write_all(b"GET / HTTP/1.1\r\nHo").unwrap();
        stream.shutdown(Shutdown::Both).unwrap();
    }
    // This one goes before it has read its answer.
    let mut stream = running.connect();
    stream
        .write_all(b"GET /picture.svg HTTP/1.1\r\nHost: localhost\r\n\r\n")
        .unwrap();
    drop(stream);
    running.get("/").is(200, "");
    running.end();
}

#[test]
fn more_than_some_at_once_are_told_so() {
    const TRIES: usize = 100;
    let running = small(MOST_AT_ONCE + 1 + TRIES);
    let silent: Vec<TcpStream> = (0..MOST_AT_ONCE).map(|_| running.connect()).collect();
    running.get("/").is(503, "too many");
    drop(silent);
    // The places are free again as soon as the server has seen that the others are gone.
    let free = (0..TRIES).any(|_| {
        thread::sleep(Duration::from_millis(50));
        running.get("/").status == 200
    });
    assert!(free);
}

/// Queries that are refused, and what is said of them.
const WRONG: [(&str, &str); 26] = [
    ("/?a=1", "no query"),
    ("/page.js?1", "no query"),
    ("/view?view=1,2,3", "x0,x1,y0,y1"),
    ("/view?view=a,b,c,d", "x0,x1,y0,y1"),
    ("/view?view=99999999999,1,1,1", "x0,x1,y0,y1"),
    ("/view?view=0,40000,0,1", "question 20"),
    ("/view?view=1,0,0,1", "question 11"),
    ("/view?stop=17", "question 12"),
    ("/view?stop=-1", "stop"),
    ("/view?zoom=0", "question 12"),
    ("/view?zoom=0.3", "question 12"),
    ("/view?zoom=nan", "question 12"),
    ("/view?zoom=1&stop=1", "both"),
    ("/view?turn=4", "question 20"),
    ("/view?stop=1&stop=1", "twice"),
    ("/view?mark=1", "no option"),
    ("/view?hidden=2", "hidden"),
    ("/view?stop=%zz", "value"),
    ("/why", "missing"),
    ("/why?mark=2", "no mark 2"),
    ("/why?mark=-1", "number of a mark"),
    ("/why?mark=99999999999999999999999", "number of a mark"),
    ("/hold?fate=gone", "fate"),
    ("/hold?from=-1", "number of a row"),
    ("/picture.svg?size=9x9", "640x480"),
    ("/picture.svg?size=99999x99999", "16384"),
];

#[test]
fn wrong_queries_are_refused_in_words() {
    let running = small(WRONG.len());
    for (target, words) in WRONG {
        let answer = running.get(target);
        answer.is(400, words);
        assert_eq!(
            answer.header("Content-Type"),
            Some("text/plain; charset=utf-8"),
            "{target}"
        );
    }
    running.end();
}

// ---- that its answers are the library's

#[test]
fn a_view_is_the_librarys() {
    let mut generator = Generator::new(81);
    for _ in 0..25 {
        let n = generator.below(50) as usize;
        let drawn = Drawn::new(&mut generator, n);
        let views: Vec<View> = (0..8).map(|_| some_view(&mut generator, &drawn)).collect();
        let site = Site::new(drawn.open(), "drawn", None).unwrap();
        let running = Running::new(site, LIMITS, views.len());
        let reel = drawn.open();
        for view in views {
            let json = running
                .get(&format!("/view?{}&hidden=1", query(view)))
                .json();
            assert_eq!(json.get("turn").number(), view.turn.quarters().into());
            labels_are_the_librarys(&json, &reel, view);
            counts_are_the_librarys(&json, &reel, view);
        }
        running.end();
    }
}

/// Sees that the labels are those of the library's map, at their turned places.
fn labels_are_the_librarys(json: &Value, reel: &Reel, view: View) {
    let map = rollmap::view_to_map(&reel.scheduled, view).unwrap();
    let labels = json.get("labels").list().iter().map(Value::numbers);
    let labels: Vec<Vec<i64>> = labels.collect();
    assert!(labels.iter().map(|label| label[0] as u32).eq(map.iter()));
    for label in &labels {
        let mark = reel.marks[label[0] as usize];
        let (x, y) = view.turn.turned(mark.x, mark.y);
        assert_eq!((label[1], label[2]), (x.into(), y.into()));
    }
}

/// Sees that the counts are the library's and add up, and that dots lead to marks that live.
fn counts_are_the_librarys(json: &Value, reel: &Reel, view: View) {
    let map = rollmap::view_to_map(&reel.scheduled, view).unwrap();
    let living = rollmap::view_to_map(&reel.scheduled, View::whole(view.zoom)).unwrap();
    let all = json.get("counts").list()[5].numbers();
    let n = reel.marks.len() as i64;
    assert_eq!(
        (all[0], all[1]),
        (map.count().into(), living.count().into())
    );
    assert_eq!((all[1] + all[2] + all[3], all[4]), (n, n));
    for dot in json.get("dots").list() {
        let dot = dot.numbers();
        assert!(!living.contains(dot[0] as u32) && living.contains(dot[4] as u32));
    }
}

/// The marks of a reel as a list, but for one that has gone and one that is another.
fn altered(generator: &mut Generator, drawn: &Drawn) -> Vec<Listed> {
    let mut list = drawn.listed(false);
    list.remove(generator.below(list.len() as u32) as usize);
    if let Some(first) = list.first_mut() {
        first.mark.priority ^= 1;
    }
    list
}

#[test]
fn why_hold_and_picture_are_what_the_commands_say() {
    let mut generator = Generator::new(82);
    for _ in 0..20 {
        let n = 1 + generator.below(30) as usize;
        let drawn = Drawn::new(&mut generator, n);
        let reel = drawn.open();
        let view = some_view(&mut generator, &drawn);
        let list = altered(&mut generator, &drawn);
        let table = Table {
            marks: list.clone(),
            has_popups: false,
        };
        let site = Site::new(drawn.open(), "drawn", Some(table)).unwrap();
        let running = Running::new(site, LIMITS, 3);

        let mark = generator.below(n as u32);
        let told = running
            .get(&format!("/why?mark={mark}&{}", query(view)))
            .json();
        assert_eq!(told.get("mark").number(), i64::from(mark));
        assert_eq!(told.get("sentences").texts(), why(&reel, mark as usize));

        let held = hold(&list, &reel, view).unwrap();
        rows_are_held(
            &running.get(&format!("/hold?{}", query(view))).json(),
            &held,
        );

        let picture = running.get(&format!(
            "/picture.svg?{}&hidden=1&size=900x700",
            query(view)
        ));
        let size = Size::read("900x700").unwrap();
        assert_eq!(
            picture.body,
            draw(&reel, "drawn", view, size, true).unwrap()
        );
        running.end();
    }
}

/// Sees that the rows are those that were held.
fn rows_are_held(json: &Value, held: &Held) {
    assert_eq!(json.get("found").number(), held.rows.len() as i64);
    assert_eq!(
        json.get("rows").list().len(),
        held.rows.len().min(MOST_ROWS)
    );
    let explained = held.numbers.not_explained() == 0;
    assert_eq!(json.get("explained"), &Value::Truth(explained));
    for (row, told) in held.rows.iter().zip(json.get("rows").list()) {
        let mark = row
            .mark
            .map_or(Value::Null, |mark| Value::Number(mark as i64));
        assert_eq!(told.get("mark"), &mark);
        assert_eq!(told.get("explained"), &Value::Truth(row.is_explained()));
    }
}

#[test]
fn the_rows_come_in_pieces_and_by_fate() {
    let marks = oracle::sample::marks(oracle::sample::Layout::Uniform, 4_096, 3);
    let sheet = oracle::contents::join_parts(&[(1, &oracle::mark::write_marks(&marks))]);
    let site = Site::new(Reel::open(sheet).unwrap(), "large", None).unwrap();
    let pieces = 4_096_usize.div_ceil(MOST_ROWS);
    let running = Running::new(site, LIMITS, pieces + 5);
    let mut told = Vec::new();
    for piece in 0..pieces {
        let json = running
            .get(&format!("/hold?stop=9&from={}", piece * MOST_ROWS))
            .json();
        told.extend(
            json.get("rows")
                .list()
                .iter()
                .map(|row| row.get("mark").number()),
        );
    }
    assert!(told.into_iter().eq(0..4_096), "each mark is in one row");
    let fates = ["shown", "hidden", "waiting", "outside", "unexplained"];
    let found = fates.map(|fate| {
        let json = running.get(&format!("/hold?stop=9&fate={fate}")).json();
        json.get("found").number()
    });
    assert_eq!(found.iter().sum::<i64>(), 4_096);
    assert!(found[0] > 0 && found[1] > 0 && found[4] == 0, "{found:?}");
    running.end();
}

#[test]
fn squares_are_not_turned_and_that_is_said() {
    let marks = rollmap::marks_to_vec(&[]);
    let square = rollmap::Shape::Square.to_bytes();
    let parts = [
        (rollmap::Code::Marks, &marks[..]),
        (rollmap::Code::Shape, &square[..]),
    ];
    let reel = Reel::open(rollmap::assemble_to_vec(&parts).unwrap()).unwrap();
    let running = Running::new(Site::new(reel, "squares", None).unwrap(), LIMITS, 5);
    for turn in Turn::ALL {
        let answer = running.get(&format!("/view?turn={}", turn.quarters()));
        match turn {
            Turn::None => answer.is(200, ""),
            _ => answer.is(400, "0 alone where the labels are squares"),
        }
    }
    running.get("/").is(200, "data-shape=\"squares\"");
    running.end();
}

// ---- the page

#[test]
fn the_page_loads_nothing_from_elsewhere_and_its_script_finds_its_parts() {
    let running = small(3);
    let [page, style, script] = ["/", "/page.css", "/page.js"].map(|path| running.get(path).body);
    for text in [&page, &style, &script] {
        for elsewhere in ["http:", "https:", "@import", "url(//", "src=\"//", "eval("] {
            assert!(!text.contains(elsewhere), "{elsewhere}");
        }
    }
    // What the policy forbids is not there.
    for inline in ["<style", " style=", " onclick=", "<script>"] {
        assert!(!page.contains(inline), "{inline}");
    }
    for piece in script.split("at(\"").skip(1) {
        let (id, _) = piece.split_once('"').unwrap();
        assert!(page.contains(&format!(" id=\"{id}\"")), "{id}");
    }
    running.end();
}

#[test]
fn a_name_is_not_taken_for_markup() {
    let name = "<script>alert(1)</script>\"'&.sheet";
    let site = Site::new(small_reel(), name, None).unwrap();
    let running = Running::new(site, LIMITS, 2);
    for path in ["/", "/picture.svg"] {
        let body = running.get(path).body;
        assert!(!body.contains("<script>alert"), "{path}");
        assert!(
            body.contains("&lt;script&gt;alert(1)&lt;/script&gt;&quot;&#39;&amp;.sheet"),
            "{path}"
        );
    }
    running.end();
}

// ---- the command

#[test]
fn the_command_says_why_it_cannot_begin() {
    let folder = Folder::new("serve");
    folder.write("a.sheet", small_reel().bytes);
    folder.write("wrong.csv", "x,y\n1,2\n");
    folder.write("none.sheet", "not a sheet");
    let taken = Server::bind(0, LIMITS).unwrap();
    let port = taken.address().port();
    for (call, status, words) in [
        ("serve".to_owned(), 2, "missing"),
        ("serve nothing.sheet".to_owned(), 2, "nothing.sheet"),
        ("serve none.sheet".to_owned(), 3, "question"),
        ("serve a.sheet --port 65536".to_owned(), 2, "a port"),
        (format!("serve a.sheet --port {port}"), 2, "port"),
        ("serve a.sheet --list wrong.csv".to_owned(), 2, "wrong.csv"),
    ] {
        let called = folder.call(&call).ended(status);
        assert!(called.err.contains(words), "{call}: {}", called.err);
    }
}

#[test]
fn the_command_prints_its_address_and_answers_there() {
    let folder = Folder::new("serve-runs");
    folder.write("a.sheet", small_reel().bytes);
    let mut child = std::process::Command::new(env!("CARGO_BIN_EXE_rollmap"))
        .args(["serve", "a.sheet"])
        .current_dir(folder.path())
        .stdout(std::process::Stdio::piped())
        .spawn()
        .expect("the command runs");
    let mut line = String::new();
    let out = child.stdout.take().expect("it has an output");
    std::io::BufRead::read_line(&mut std::io::BufReader::new(out), &mut line).unwrap();
    let address = line
        .strip_prefix("http://")
        .and_then(|line| line.split('/').next());
    let mut stream = TcpStream::connect(address.expect("it prints its address")).unwrap();
    stream.set_read_timeout(Some(PATIENCE)).unwrap();
    stream
        .write_all(b"GET / HTTP/1.1\r\nHost: localhost\r\n\r\n")
        .unwrap();
    let answer = Answer::read(stream);
    child.kill().expect("it runs until it is ended");
    child.wait().unwrap();
    answer.is(200, "Roll map of a.sheet");
}
