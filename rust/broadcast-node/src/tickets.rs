//! Tickets of those who wait, and the room for those that are served.

use crate::Error;
use std::fmt;

/// What a caller waits under, until the message of its digest is taken.
///
/// A cache draws each ticket once.
#[derive(Clone, Copy, PartialEq, Eq, PartialOrd, Ord, Hash)]
#[repr(transparent)]
pub struct Ticket(pub(crate) u64);

impl fmt::Debug for Ticket {
    fn fmt(&self, f: &mut fmt::Formatter<'_>) -> fmt::Result {
        write!(f, "Ticket({})", self.0)
    }
}

impl From<Ticket> for u64 {
    fn from(ticket: Ticket) -> u64 {
        ticket.0
    }
}

/// The most places that are kept although nobody needs them.
const SPARE: usize = 1024;

/// The tickets of a cache. There is always room for all that wait, so no call that serves some fails for want of it.
pub struct Tickets {
    next: u64,
    waiting: usize,
    served: Vec<Ticket>,
}

impl Tickets {
    pub const fn new() -> Tickets {
        Tickets { next: 0, waiting: 0, served: Vec::new() }
    }

    /// Returns how many wait.
    pub fn waiting(&self) -> usize {
        self.waiting
    }

    /// Makes room for one more, and returns its ticket, which waits once `wait` is called.
    pub fn draw(&mut self) -> Result<Ticket, Error> {
        let places = self.waiting.saturating_add(1);
        if self.served.capacity() > SPARE && self.served.capacity() / 4 > places {
            let mut room = Vec::new();
            room.try_reserve(places)?;
            self.served = room;
        }
        self.served.clear();
        self.served.try_reserve(places)?;
        Ok(Ticket(self.next))
    }

    /// Notes that the ticket that was drawn last waits.
    pub fn wait(&mut self) {
        self.next = self.next.wrapping_add(1);
        self.waiting = self.waiting.saturating_add(1);
    }

    /// Notes that this many wait no more.
    pub fn gone(&mut self, count: u64) {
        let count = usize::try_from(count).unwrap_or(usize::MAX);
        self.waiting = self.waiting.saturating_sub(count);
    }

    /// Notes that this many were served, which `fill` writes into the room.
    pub fn serve(
        &mut self,
        count: usize,
        fill: impl FnOnce(&mut [Ticket]) -> Result<(), Error>,
    ) -> Result<(), Error> {
        self.served.clear();
        if count == 0 {
            return Ok(());
        }
        self.waiting = self.waiting.saturating_sub(count);
        self.served.try_reserve(count)?; // there is room already
        self.served.resize(count, Ticket(0));
        fill(&mut self.served)
    }

    /// Returns the tickets that were served last.
    pub fn served(&self) -> &[Ticket] {
        &self.served
    }
}
