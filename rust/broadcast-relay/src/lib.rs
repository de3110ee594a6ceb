//! A gossip relay over mutual TLS, and its parts for whoever carries its messages over another transport.
//!
//! Messages are signed by their authors. Each relay has a part of each author's log, reports to its peers which part, and gets from
//! them what it lacks.
//!
//! - [`gossip`] is the protocol, without sockets, clocks and threads.
//! - [`intake`] is a relay without a network and a clock: it checks signatures, keeps the journal, and delivers each message once.
//! - [`message`], [`wire`] and [`journal`] are the formats of a message, of what relays send each other, and of files.
//! - [`commands`] are the commands of the program `broadcast-relay`.

pub mod commands;
mod config;
mod connection;
mod daemon;
#[allow(missing_docs, reason = "its callers are the relay, its tests and the simulator")]
pub mod gossip;
pub mod identity;
mod input;
pub mod intake;
pub mod journal;
mod listen;
mod lock;
pub mod message;
mod metrics;
mod output;
mod registry;
mod strangers;
mod tls;
mod trouble;
pub mod wire;

pub use config::PeerConfig;

use gossip::Time;
use std::io;
use std::path::Path;
use std::sync::LazyLock;
use std::time::{Instant, SystemTime, UNIX_EPOCH};

/// Names an error by its file.
fn of(path: &Path) -> impl FnOnce(io::Error) -> io::Error + use<'_> {
    move |why| io::Error::new(why.kind(), format!("{}: {why}", path.display()))
}

/// Microseconds since the first call.
fn now() -> Time {
    static START: LazyLock<Instant> = LazyLock::new(Instant::now);
    START.elapsed().as_micros() as Time
}

/// Nanoseconds since 1970.
fn clock() -> u64 {
    SystemTime::now().duration_since(UNIX_EPOCH).unwrap_or_default().as_nanos() as u64
}

/// What came, or was read, is wrong.
fn invalid(why: impl ToString) -> io::Error {
    io::Error::new(io::ErrorKind::InvalidData, why.to_string())
}
