//! What a relay keeps of one author: the log of the verified library, and the bytes of the messages that it lists.

use super::{Message, Past};
use broadcast_node::log::{Arrived, AuthorLog, CHARGE, Message as Entry};
use broadcast_node::{Coverage, Error};
use bytes::Bytes;
use std::collections::HashMap;
use std::mem::take;

const LINKED: &str = "the verified library is linked, and there is memory";

/// Returns the coverage of all stamps up to one.
pub fn up_to(stamp: u64) -> Coverage {
    Coverage::new(stamp).expect(LINKED)
}

/// Creates a log in which all up to a floor was had, and nothing of it is listed. A log's floor rises only by what leaves. So a message
/// that fills the budget stands for the floor, and leaves for the first that comes. Its handle is the floor.
///
/// # Errors
///
/// As `AuthorLog::new`.
pub fn log_with_floor(budget: u64, floor: u64) -> Result<AuthorLog, Error> {
    let mut log = AuthorLog::new(budget)?;
    if floor > 0 {
        let bytes = budget - CHARGE;
        let base = Entry { prev: 0, stamp: floor, bytes, handle: floor };
        log.arrive(base, u64::MAX, &mut Vec::new())?;
    }
    Ok(log)
}

/// Returns the greatest stamp that a report shows.
pub fn top(report: &Coverage) -> u64 {
    report.spans().last().map_or(report.floor(), |it| it.to)
}

/// Whether a report shows a stamp. The library is asked only about what is between its floor and its top.
pub fn shows(report: &Coverage, stamp: u64) -> bool {
    stamp <= report.floor() || (stamp <= top(report) && report.has(stamp))
}

/// Whether a report may be cut off: then nothing is known of what is above its top.
pub fn is_cut(report: &Coverage) -> bool {
    report.spans().len() == Coverage::MOST
}

/// The log decides what is listed, what is reported, what a peer is sent, and how far a peer is behind.
#[derive(Debug)]
pub struct Kept {
    author: usize,
    budget: u64,
    log: AuthorLog,
    /// The bytes of each listed message, by its stamp, and how many were listed before it.
    bodies: HashMap<u64, (Bytes, u64)>,
    /// How many were listed, ever.
    pub count: u64,
    /// The floor that it began with.
    base: u64,
    /// What is reported, until something arrives.
    report: Option<Coverage>,
    gone: Vec<u64>,
}

impl Kept {
    /// Creates the log of an author of whom all up to a floor was had.
    pub fn new(author: usize, budget: u64, floor: u64) -> Kept {
        Kept {
            author,
            budget,
            log: log_with_floor(budget, floor).expect(LINKED),
            bodies: HashMap::new(),
            count: 0,
            base: floor,
            report: None,
            gone: Vec::new(),
        }
    }

    /// Begins with what a journal had, if that is anything.
    pub fn restore(&mut self, past: Past) {
        if past.floor == 0 && past.messages.is_empty() {
            return;
        }
        *self = Kept::new(self.author, self.budget, past.floor);
        past.messages.into_iter().for_each(|it| drop(self.arrive(it, u64::MAX)));
    }

    /// Lists nothing any more. What was had stays had.
    pub fn clear(&mut self) {
        *self = Kept::new(self.author, self.budget, self.top());
    }

    /// Takes a message that arrives. Returns what became of it, and the stamps of those that leave the list for it.
    pub fn arrive(&mut self, it: Message, latest: u64) -> (Arrived, Vec<u64>) {
        if it.stamp <= self.base {
            return (Arrived::Refused, Vec::new());
        }
        let (bytes, handle) = (it.bytes.len() as u64, it.stamp);
        let entry = Entry { prev: it.prev, stamp: it.stamp, bytes, handle };
        let arrived = self.log.arrive(entry, latest, &mut self.gone).expect(LINKED);
        if arrived == Arrived::Listed {
            self.bodies.insert(it.stamp, (it.bytes, self.count));
            self.count += 1;
        }
        let mut gone = take(&mut self.gone);
        gone.retain(|it| self.bodies.remove(it).is_some());
        if matches!(arrived, Arrived::Listed | Arrived::Passed) {
            self.report = None;
        }
        (arrived, gone)
    }

    /// Whether what comes of a stamp is not new.
    pub fn has(&self, stamp: u64) -> bool {
        stamp <= self.base || self.log.has(stamp)
    }

    /// Nothing at or below it is listed.
    pub fn floor(&self) -> u64 {
        self.log.floor().max(self.base)
    }

    /// The greatest stamp that was had.
    pub fn top(&self) -> u64 {
        let last = self.log.len().checked_sub(1).and_then(|it| self.log.get(it));
        last.map_or(self.log.floor(), |it| it.stamp)
    }

    /// What the listed messages are charged.
    pub fn bytes(&self) -> u64 {
        if self.is_empty() { 0 } else { self.log.bytes() }
    }

    /// How many messages are listed.
    pub fn len(&self) -> usize {
        self.bodies.len()
    }

    pub fn is_empty(&self) -> bool {
        self.bodies.is_empty()
    }

    /// The listed message at an index, in order of stamps.
    pub fn get(&self, index: usize) -> Option<Message> {
        self.message(&self.log.get(index)?)
    }

    /// The listed messages, in order of stamps.
    pub fn iter(&self) -> impl Iterator<Item = Message> {
        (0..self.log.len()).filter_map(|it| self.get(it))
    }

    fn message(&self, entry: &Entry) -> Option<Message> {
        let (bytes, _) = self.bodies.get(&entry.handle)?;
        let (stamp, prev) = (entry.stamp, entry.prev);
        Some(Message { author: self.author, stamp, prev, bytes: bytes.clone() })
    }

    /// How many were listed before a message.
    pub fn number(&self, stamp: u64) -> u64 {
        self.bodies.get(&stamp).map_or(0, |it| it.1)
    }

    /// What is reported to peers.
    pub fn report(&mut self) -> &Coverage {
        self.report.get_or_insert_with(|| self.log.report().expect(LINKED))
    }

    /// The message that a peer is sent next, as the library has it.
    pub fn next(
        &self,
        reported: &Coverage,
        sent: u64,
        in_flight: &[u64],
        (flying, room): (u64, u64),
    ) -> Option<Message> {
        let entry = self.log.next(reported, sent, in_flight, flying, room)?;
        self.message(&entry)
    }

    /// What the listed messages are charged that a report does not show.
    pub fn lag(&self, reported: &Coverage) -> u64 {
        if self.is_empty() { 0 } else { self.log.lag(reported) }
    }
}
