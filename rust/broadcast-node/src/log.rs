//! The log of an author: the newest of its messages that fit a budget, in whatever order, how often and from whomever they
//! come. The verified library decides.

use crate::raw::{self, OwnedLog};
use crate::{Coverage, Error, Span};
use std::fmt;

/// What each message is charged beside its bytes.
pub const CHARGE: u64 = 64;

/// A message of an author, as a log keeps it.
#[repr(C)]
#[derive(Clone, Copy, Debug, Default, PartialEq, Eq, Hash)]
#[cfg_attr(feature = "serde", derive(serde::Serialize, serde::Deserialize))]
pub struct Message {
    /// The stamp of the author's message before it.
    pub prev: u64,
    /// Its own stamp.
    pub stamp: u64,
    /// Its size. It is charged [`CHARGE`] bytes more.
    pub bytes: u64,
    /// The caller's name for it.
    pub handle: u64,
}

/// What becomes of a message that arrives.
#[derive(Clone, Copy, Debug, PartialEq, Eq, Hash)]
#[non_exhaustive]
pub enum Arrived {
    /// It is new, and on the list.
    Listed,
    /// It is new, but has no room beside the later ones: it and all earlier ones are up to the floor now.
    Passed,
    /// Its stamp is up to the floor, or listed, or no later than the one before it. The log is as it was.
    Refused,
    /// It is charged more than the budget by itself. The log is as it was.
    Oversize,
    /// Its stamp is later than the greatest that may be accepted. The log is as it was.
    Untimely,
}

/// The newest messages of an author that fit a budget of bytes, in order of stamps. Up to the *floor* nothing is listed any
/// more; above it is all that came and fits together with all later ones. So two logs of one budget to which the same messages came
/// list the same, in whatever order and how often they came. The relays of a network need one budget.
///
/// ```
/// # fn main() -> Result<(), broadcast_node::Error> {
/// use broadcast_node::log::{Arrived, AuthorLog, Message};
///
/// // Each message is charged 64 bytes beside its own.
/// let mut log = AuthorLog::new(200)?;
/// let message = |stamp| Message { prev: stamp - 1, stamp, bytes: 36, handle: 10 * stamp };
/// let (mut left, latest) = (Vec::new(), 9); // no stamp above 9 is accepted now
/// assert_eq!(log.arrive(message(2), latest, &mut left)?, Arrived::Listed);
/// assert_eq!(log.arrive(message(1), latest, &mut left)?, Arrived::Listed);
/// assert_eq!(log.arrive(message(3), latest, &mut left)?, Arrived::Listed);
/// assert_eq!((log.floor(), log.len(), &left[..]), (1, 2, &[10][..]));
/// let mut peer = AuthorLog::new(200)?;
/// peer.arrive(message(2), latest, &mut left)?;
/// // The peer is sent what its report does not show, the earliest first.
/// assert_eq!(log.next(&peer.report()?, 0, &[], 0, 1), log.find(3));
/// # Ok(())
/// # }
/// ```
pub struct AuthorLog(OwnedLog);

impl fmt::Debug for AuthorLog {
    fn fmt(&self, f: &mut fmt::Formatter<'_>) -> fmt::Result {
        let (floor, len, bytes) = self.0.count();
        let mut shown = f.debug_struct("AuthorLog");
        shown.field("floor", &floor).field("len", &len).field("bytes", &bytes).finish()
    }
}

impl AuthorLog {
    /// Creates the log of an author of whom nothing came, whose messages are charged at most `budget` bytes together.
    ///
    /// # Errors
    ///
    /// [`Error::Memory`], [`Error::Processor`] and [`Error::Version`].
    pub fn new(budget: u64) -> Result<AuthorLog, Error> {
        raw::is_usable()?;
        OwnedLog::new(budget).map(AuthorLog).map_err(raw::error)
    }

    /// Takes a message that arrives, if its stamp is no later than `latest`, and appends the handles of the messages that
    /// leave for it to `left`: the earliest first, and its own among them if it is [`Arrived::Passed`].
    ///
    /// # Errors
    ///
    /// [`Error::Memory`]: the log and `left` are as they were.
    pub fn arrive(
        &mut self,
        message: Message,
        latest: u64,
        left: &mut Vec<u64>,
    ) -> Result<Arrived, Error> {
        let before = left.len();
        let taken = self.take(&message, latest, left);
        if taken.is_err() {
            left.truncate(before);
        }
        taken
    }

    /// As `arrive`, but `left` may be longer after an error.
    fn take(
        &mut self,
        message: &Message,
        latest: u64,
        left: &mut Vec<u64>,
    ) -> Result<Arrived, Error> {
        let (before, mut needed, mut arrived) = (left.len(), 0, 0);
        let mut status = self.0.arrive(message, latest, &mut [], &mut needed, &mut arrived);
        if status == raw::SHORT {
            left.try_reserve(needed)?;
            left.resize(before + needed, 0);
            let room = &mut left[before..];
            status = self.0.arrive(message, latest, room, &mut needed, &mut arrived);
        }
        match (status, arrived) {
            (raw::OK, raw::LISTED) => Ok(Arrived::Listed),
            (raw::OK, raw::PASSED) => Ok(Arrived::Passed),
            (raw::OK, raw::REFUSED) => Ok(Arrived::Refused),
            (raw::OK, raw::ABOVE_BUDGET) => Ok(Arrived::Oversize),
            (raw::OK, raw::UNTIMELY) => Ok(Arrived::Untimely),
            (status, _) => Err(raw::error(status)),
        }
    }

    /// Returns the floor: no message up to it is listed, and none will be.
    pub fn floor(&self) -> u64 {
        self.0.count().0
    }

    /// Returns the number of listed messages.
    pub fn len(&self) -> usize {
        self.0.count().1
    }

    /// Returns whether no message is listed.
    pub fn is_empty(&self) -> bool {
        self.len() == 0
    }

    /// Returns what the listed messages are charged, at most the budget.
    pub fn bytes(&self) -> u64 {
        self.0.count().2
    }

    /// Returns whether the stamp is up to the floor, or listed: what comes of it is refused.
    pub fn has(&self, stamp: u64) -> bool {
        self.0.has(stamp)
    }

    /// Returns the listed message at the index, from 0 on in order of stamps.
    pub fn get(&self, index: usize) -> Option<Message> {
        let mut out = Message::default();
        (self.0.get(index, &mut out) == raw::OK).then_some(out)
    }

    /// Returns the listed message of the stamp.
    pub fn find(&self, stamp: u64) -> Option<Message> {
        let mut out = Message::default();
        (self.0.find(stamp, &mut out) == raw::OK).then_some(out)
    }

    /// Returns what is reported to a peer. It shows only what the floor and the listed messages, each from `prev` on, cover.
    /// If that takes more than [`Coverage::MOST`] spans above the floor, the report is cut off above.
    ///
    /// # Errors
    ///
    /// [`Error::Memory`].
    pub fn report(&self) -> Result<Coverage, Error> {
        let (mut floor, mut needed) = (0, 0);
        let mut spans = [Span::default(); Coverage::MOST];
        match self.0.report(&mut floor, &mut spans, &mut needed) {
            raw::OK => {}
            status => return Err(raw::error(status)),
        }
        let mut above = Vec::new();
        above.try_reserve_exact(needed)?;
        above.extend(spans.iter().take(needed));
        Coverage::reported(floor, above)?.ok_or(Error::Status(raw::SHORT))
    }

    /// Returns the message that a peer with this report is sent next: the earliest that the peer lacks and whose stamp is
    /// not in flight, if the bytes `flying` are less than `room`. Up to the top of the report the peer lacks what the report does
    /// not show; above it, what is later than `sent`: the greatest stamp above the top of a report that was sent on this
    /// connection, at first 0. The stamps in flight may come in any order; the call is fast if they rise.
    pub fn next(
        &self,
        reported: &Coverage,
        sent: u64,
        in_flight: &[u64],
        flying: u64,
        room: u64,
    ) -> Option<Message> {
        let mut out = Message::default();
        let status = self.0.next(reported, sent, in_flight, (flying, room), &mut out);
        (status == raw::OK).then_some(out)
    }

    /// Returns what the listed messages are charged that the report does not show.
    pub fn lag(&self, reported: &Coverage) -> u64 {
        let mut bytes = 0;
        // There is a coverage and a log only where the library can be used, so no call fails.
        self.0.lag(reported, &mut bytes);
        bytes
    }
}
