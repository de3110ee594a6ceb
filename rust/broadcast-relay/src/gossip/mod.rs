//! Replication of authors' logs between relays, driven by the receiver.
//!
//! Of each author a relay keeps the newest messages that fit a budget, in whatever order, how often and from whomever they come: the
//! *log* of the verified library, which decides what is listed, what is reported, what a peer is sent next, and how far a peer is
//! behind. This module decides *when*: it has timers, rooms, holds and queues, and no list of its own.
//!
//! A message covers an interval `(prev, stamp]` of its author's time line. A relay reports to each peer, for each author, what its
//! log covers, in at most 64 intervals from below, and how many more bytes it takes now (its *room*). A report is the newest state
//! and replaces older ones, so reports may be late, joined or repeated. What a peer reports decides only what it is sent, and whom
//! a relay lets bring what it lacks.
//!
//! - **Asks.** Of each author one peer is *asked*: it has room, so a message comes once. While something does not come that others
//!   report, as many peers more are asked as are asked already, in turn. Once it came, who brought the last of it is asked alone.
//! - **Hold.** While a peer that is waited for lacks more than `behind` bytes of an author's list, the author is *held*: its own
//!   relay reads no input, and others report that they want nothing above the top of their coverage. A gap can always be filled,
//!   so relays never wait for each other in a circle.
//! - **Patience.** A peer is waited for as long as its patience lasts, which waiting uses up and what it takes renews.
//! - **Left out.** A message of a peer without room that does not go on where something was had is left out, and so is one that is
//!   above its author's rate, or whose stamp is too far in the future. The peer sees from `done` that it was left out, and may send
//!   it again.
//! - **First reports.** A connection begins with a report of each listed author. The own log is last, so its report shows that the
//!   peer lists nobody else. Until then the peer is waited for as if it listed each author, and had it up to that time.
//!
//! Nothing here has a clock: times are arguments. Nothing is shared between authors but a peer's turns.

mod asks;
mod kept;
mod links;
mod log;
mod machine;
mod pace;
mod session;
mod view;

pub use kept::{Kept, log_with_floor, top};
pub use log::Log;
pub use machine::{Machine, Past, Taken};
pub use pace::{Bar, Bucket};

pub use broadcast_node::Coverage;
pub use broadcast_node::log::CHARGE;

use broadcast_node::Error;
use broadcast_node::log::AuthorLog;
use bytes::Bytes;
use std::fmt;

/// Returns an error if the verified library is not there. Nothing else of this module may be called then.
pub fn check() -> Result<(), Error> {
    AuthorLog::new(0).map(drop)
}

/// Microseconds of any clock that does not run backwards.
pub type Time = u64;
pub const NEVER: Time = Time::MAX;
pub const SECOND: Time = 1_000_000;

/// The bounds of the protocol. Needed: `behind + room + largest <= list` and `room <= burst / 8`.
#[derive(Clone, Debug)]
pub struct Bounds {
    /// The most bytes of an author's list, with what each message is charged. It is the same in all relays of a network.
    pub list: u64,
    /// By how many bytes of a list a peer may be behind before it is waited for.
    pub behind: u64,
    /// The most bytes of an author in flight to a peer. A sender may go beyond it by one message.
    pub room: u64,
    /// The most bytes of a message, with what it is charged.
    pub largest: u64,
    /// The bytes of an author that are taken in a second, and at once.
    pub rate: u64,
    pub burst: u64,
    /// The bytes that a message counts at least, as far as its author's rate goes.
    pub least: u64,
    /// How long a peer is waited for, and the bytes a second at which what it takes renews that.
    pub patience: Time,
    pub pace: u64,
    /// How long a report is delayed for a peer that lacks something, and for any other.
    pub join: Time,
    pub lazy: Time,
    /// How long those that are asked may bring nothing, and how long a message may be lacking, while others report it.
    pub idle: Time,
    pub slow: Time,
    /// After what time is lost what no peer can send, if the author is connected or was not for long; and else.
    pub nobody: Time,
    pub somebody: Time,
}

impl Default for Bounds {
    fn default() -> Bounds {
        Bounds {
            list: 4 << 20,
            behind: 2 << 20,
            room: 256 << 10,
            largest: 256 << 10,
            rate: 16 << 20,
            burst: 2 << 20,
            least: 0,
            patience: 6 * SECOND,
            pace: 64 << 10,
            join: 10_000,
            lazy: 200_000,
            idle: 30_000,
            slow: SECOND / 2,
            nobody: 2 * SECOND,
            somebody: 60 * SECOND,
        }
    }
}

impl Bounds {
    /// By how many bytes a peer must come nearer to end the wait for it. It is so small that who waits for this relay sees it move
    /// before patience ends.
    fn step(&self) -> u64 {
        (self.behind / 16).min(self.pace * self.patience / SECOND / 4)
    }
}

/// A signed message. It covers `(prev, stamp]` of its author's log.
#[derive(Clone, Debug, PartialEq, Eq)]
pub struct Message {
    pub author: usize,
    pub stamp: u64,
    pub prev: u64,
    pub bytes: Bytes,
}

impl Message {
    /// What it counts wherever bytes are counted.
    pub fn size(&self) -> u64 {
        self.bytes.len() as u64 + CHARGE
    }
}

/// The newest state of an author's log at a relay.
#[derive(Clone, Debug, PartialEq, Eq)]
pub struct Report {
    /// What its log covers, cut off above.
    pub coverage: Coverage,
    /// Nothing at or below it can be had from that relay.
    pub since: u64,
    /// The bytes that may be in flight to that relay beyond `coverage`.
    pub room: u64,
    /// How many messages of the peer that relay is done with, in this connection: what is not had of these was left out, and may be
    /// sent again.
    pub done: u64,
    /// The relay waits for others: it wants nothing above its top.
    pub is_held: bool,
}

impl Report {
    /// All up to a stamp, and no room.
    pub fn up_to(stamp: u64) -> Report {
        let coverage = kept::up_to(stamp);
        Report { coverage, since: 0, room: 0, done: 0, is_held: false }
    }
}

#[derive(Clone, Debug, PartialEq, Eq)]
pub enum Frame {
    /// Of an author.
    Report(usize, Report),
    Message(Message),
}

/// What no honest peer sends: a message that is too long or covers nothing.
#[derive(Clone, Copy, Debug, PartialEq, Eq)]
pub struct Malformed;

impl fmt::Display for Malformed {
    fn fmt(&self, f: &mut fmt::Formatter<'_>) -> fmt::Result {
        f.write_str("a message that cannot be")
    }
}
