//! A page on this machine: the reel to look at, why a mark is gone, and the list held against
//! it.

use std::ffi::OsString;
use std::io;
use std::net::{Ipv4Addr, SocketAddr, TcpListener, TcpStream};
use std::sync::atomic::{AtomicUsize, Ordering};
use std::sync::Arc;
use std::thread;
use std::time::Duration;

use crate::args::{Args, Options};
use crate::picture::{open, title_of};
use crate::table::Table;
use crate::{files, Status, Trouble};

mod connection;
pub mod json;
mod page;
mod query;
pub mod reply;
pub mod request;
pub mod site;

pub use connection::Limits;
use reply::Reply;
use site::Site;

/// The page of `rollmap help serve`.
pub const HELP: &str = include_str!("serve/help.txt");

/// What `rollmap serve` takes besides the sheet.
const OPTIONS: Options = Options {
    values: &["--list", "--port"],
    flags: &["--afresh"],
};

/// The most connections that are handled at once.
pub const MOST_AT_ONCE: usize = 16;

/// How long is waited after a connection that could not be taken.
const PAUSE: Duration = Duration::from_millis(50);

/// The limits for one who is only told that too many are there.
const BRIEF: Limits = Limits {
    read: Duration::from_millis(100),
    write: Duration::from_millis(100),
};

/// A server on the loopback address of this machine, and no other.
#[derive(Debug)]
pub struct Server {
    listener: TcpListener,
    address: SocketAddr,
    limits: Limits,
}

impl Server {
    /// Takes a port of this machine, or one of the system's choice for 0.
    ///
    /// # Errors
    ///
    /// Where the port is not to be had.
    pub fn bind(port: u16, limits: Limits) -> io::Result<Self> {
        let listener = TcpListener::bind((Ipv4Addr::LOCALHOST, port))?;
        Ok(Self {
            address: listener.local_addr()?,
            listener,
            limits,
        })
    }

    /// The address that was taken.
    pub fn address(&self) -> SocketAddr {
        self.address
    }

    /// Handles so many connections, each in a thread of its own, and some at once.
    pub fn take(&self, site: &Arc<Site>, connections: usize) {
        let busy = Arc::new(AtomicUsize::new(0));
        for _ in 0..connections {
            match self.listener.accept() {
                Ok((stream, _)) => self.hand_over(stream, site, &busy),
                Err(_) => thread::sleep(PAUSE),
            }
        }
    }

    /// Gives a connection to a thread, or tells it that too many are there.
    fn hand_over(&self, stream: TcpStream, site: &Arc<Site>, busy: &Arc<AtomicUsize>) {
        let place = Place::take(busy);
        let (limits, port, site) = (self.limits, self.address.port(), Arc::clone(site));
        let Some(place) = place else {
            let reply = Reply::refused(503, "too many connections at once");
            return connection::send(&stream, BRIEF, &reply.to_bytes(false));
        };
        // Where there is no thread to be had, the connection is dropped, and closed by that.
        let _ = thread::Builder::new().spawn(move || {
            let _place = place;
            connection::handle(&stream, limits, port, |request| site.answer(request));
        });
    }
}

/// One of the places of those that are handled at once, until it is dropped.
struct Place(Arc<AtomicUsize>);

impl Place {
    fn take(busy: &Arc<AtomicUsize>) -> Option<Self> {
        if busy.fetch_add(1, Ordering::SeqCst) < MOST_AT_ONCE {
            return Some(Self(Arc::clone(busy)));
        }
        busy.fetch_sub(1, Ordering::SeqCst);
        None
    }
}

impl Drop for Place {
    fn drop(&mut self) {
        self.0.fetch_sub(1, Ordering::SeqCst);
    }
}

/// Runs `rollmap serve`, which ends when it is ended.
///
/// # Errors
///
/// Wrong usage, a file that cannot be read, a wrong line of the list, what the library refuses,
/// or a port that is not to be had.
pub fn run(words: &[OsString]) -> Result<Status, Trouble> {
    let mut args = Args::read(words, OPTIONS)?;
    let sheet = args.word("the sheet")?;
    args.end()?;
    let port = args.parsed("--port", "a port, 0 to 65535,")?.unwrap_or(0);
    let reel = open(&sheet, args.flag("--afresh"))?;
    let list = args.value("--list").map(read_list).transpose()?;
    let name = title_of(&sheet);
    let site = Arc::new(Site::new(reel, &name, list)?);
    let bound = Server::bind(port, Limits::USUAL);
    let server = bound.map_err(|error| Trouble::File(error).about(&format!("port {port}")))?;
    files::print(&format!(
        "http://{}/ shows {name} on this machine; Ctrl-C ends it\n",
        server.address()
    ))?;
    loop {
        server.take(&site, usize::MAX);
    }
}

/// Reads the list that is held against the reel.
fn read_list(path: &str) -> Result<Table, Trouble> {
    let table = Table::read(&files::read(path)?);
    table.map_err(|wrong| Trouble::Table(wrong).about(files::name(path)))
}
