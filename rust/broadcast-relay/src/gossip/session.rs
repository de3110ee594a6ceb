//! A connection of a peer, as far as one author's log goes.

use super::kept::{Kept, is_cut, shows, top, up_to};
use super::{Bounds, Coverage, Message, NEVER, Report, Time};
use std::collections::HashSet;

/// A message on its way, or that the peer brought, and that the peer's report does not show.
#[derive(Debug)]
struct Flight {
    bytes: u64,
    /// How many were sent before it and with it. 0 if the peer brought it.
    number: u64,
}

#[derive(Debug)]
pub struct Session {
    /// The peer's newest report.
    pub theirs: Option<Report>,
    /// The room that the peer knows of, and whether it knows that the author is held.
    pub room: u64,
    pub is_told_held: bool,
    /// What this relay had when the connection began, as if it were all up to its top.
    pub began: Coverage,
    /// What the peer's report does not show and need not be sent: the stamps, in order, and of each what is known. How many were sent,
    /// and the sums of bytes that are on their way, and that the peer brought.
    stamps: Vec<u64>,
    flights: Vec<Flight>,
    sent: u64,
    in_flight: u64,
    pub brought: u64,
    /// Above the top of the peer's report, nothing up to here is due.
    passed: u64,
    /// How many messages came, and whether one was left out since the last report.
    pub came: u64,
    pub has_left_out: bool,
    /// The bytes that may come of what was sent while there was room.
    pub allowed: u64,
    /// The author is among the peer's turns.
    pub has_turn: bool,
    /// A report is due, or will be at these times.
    pub is_due: bool,
    pub news_due: Time,
    pub lazy_due: Time,
    /// Since the last report: how many were listed before it, the numbers of those that were listed since and that the peer was sent, and
    /// the bytes that came.
    reported: u64,
    told: HashSet<u64>,
    pub unreported: u64,
}

impl Session {
    pub fn new(began_at: u64) -> Session {
        Session {
            theirs: None,
            room: 0,
            is_told_held: false,
            began: up_to(began_at),
            stamps: Vec::new(),
            flights: Vec::new(),
            sent: 0,
            in_flight: 0,
            brought: 0,
            passed: 0,
            came: 0,
            has_left_out: false,
            allowed: 0,
            has_turn: false,
            is_due: false,
            news_due: NEVER,
            lazy_due: NEVER,
            reported: 0,
            told: HashSet::new(),
            unreported: 0,
        }
    }

    fn flight(&self, stamp: u64) -> Option<&Flight> {
        self.stamps.binary_search(&stamp).ok().map(|it| &self.flights[it])
    }

    fn push(&mut self, stamp: u64, flight: Flight) {
        let place = match self.stamps.last() {
            Some(last) if *last >= stamp => self.stamps.partition_point(|it| *it < stamp),
            _ => self.stamps.len(),
        };
        if self.stamps.get(place) != Some(&stamp) {
            let sum = if flight.number > 0 { &mut self.in_flight } else { &mut self.brought };
            *sum += flight.bytes;
            self.stamps.insert(place, stamp);
            self.flights.insert(place, flight);
        }
    }

    /// Whether a message is on its way to the peer.
    pub fn flies(&self, stamp: u64) -> bool {
        self.flight(stamp).is_some_and(|it| it.number > 0)
    }

    /// Whether the peer has a message, as far as it reported or brought it.
    pub fn has(&self, stamp: u64) -> bool {
        self.theirs.as_ref().is_some_and(|it| shows(&it.coverage, stamp))
            || self.flight(stamp).is_some_and(|it| it.number == 0)
    }

    /// The least stamp that the peer can send, that this relay's report lacks, and that is not above `limit`.
    pub fn shows(&self, ours: &Coverage, limit: u64) -> Option<u64> {
        let theirs = self.theirs.as_ref()?;
        let limit = if is_cut(ours) { limit.min(top(ours)) } else { limit };
        ours.first_missing(&theirs.coverage, theirs.since, limit)
    }

    /// Notes that a message of the peer came.
    pub fn note_came(&mut self, size: u64) {
        self.came += 1;
        self.allowed = self.allowed.saturating_sub(size);
    }

    /// Notes that the peer brought a message which this relay has, so it has it too.
    pub fn note_brought(&mut self, stamp: u64, size: u64) {
        if self.theirs.is_some() && !self.has(stamp) {
            self.push(stamp, Flight { bytes: size, number: 0 });
        }
    }

    pub fn is_held(&self) -> bool {
        self.theirs.as_ref().is_some_and(|it| it.is_held)
    }

    /// Whether a report takes back what was reported. One that is cut off shows less above its top.
    fn takes_back(&self, report: &Report) -> bool {
        let new = &report.coverage;
        let upto = if is_cut(new) { top(new) } else { u64::MAX };
        let old = self.theirs.as_ref();
        old.is_some_and(|it| new.first_missing(&it.coverage, 0, upto).is_some())
    }

    /// Replaces the peer's report, unless that takes something back. Returns the bytes that were sent and have landed. They are not
    /// in flight any more, nor is what was left out, which is sent again. Above the top of a report that is cut off nothing is.
    pub fn replace(&mut self, report: Report) -> Option<u64> {
        if self.takes_back(&report) {
            return None;
        }
        let (mut landed, mut place) = (0, 0);
        let flights = std::mem::take(&mut self.flights);
        let stamps = std::mem::take(&mut self.stamps);
        let spans = report.coverage.spans();
        (self.in_flight, self.brought) = (0, 0);
        for (stamp, it) in stamps.into_iter().zip(flights) {
            // Both rise.
            place += spans[place..].iter().take_while(|it| it.to < stamp).count();
            let is_above = stamp > report.coverage.floor();
            if !is_above || spans.get(place).is_some_and(|it| it.from < stamp) {
                landed += if it.number > 0 { it.bytes } else { 0 };
            } else if it.number == 0 || it.number > report.done {
                self.push(stamp, it);
            }
        }
        if !is_cut(&report.coverage) {
            self.passed = 0;
        }
        self.theirs = Some(report);
        Some(landed)
    }

    fn their_room(&self) -> u64 {
        self.theirs.as_ref().map_or(0, |it| it.room)
    }

    pub fn has_room(&self) -> bool {
        self.their_room() > self.in_flight
    }

    /// A message is on the list now, which the peer has or lacks. Returns whether the peer may be sent it, and whether it is to be
    /// told of it instead.
    pub fn note(&mut self, stamp: u64, size: u64, has: bool) -> (bool, bool) {
        self.unreported += size;
        if self.theirs.as_ref().is_some_and(|it| !is_cut(&it.coverage)) {
            self.passed = self.passed.min(stamp - 1);
        }
        (!has && self.has_room(), !has && self.their_room() == 0)
    }

    /// Takes the next message for the peer, which is in flight then. A peer that is held takes only what is below its top.
    pub fn next(&mut self, kept: &Kept, bounds: &Bounds) -> Option<Message> {
        let theirs = self.theirs.as_ref()?;
        let room = (self.in_flight, theirs.room.min(bounds.room));
        let message = kept.next(&theirs.coverage, self.passed, &self.stamps, room)?;
        let (stamp, is_above) = (message.stamp, message.stamp > top(&theirs.coverage));
        if is_above && theirs.is_held {
            return None;
        }
        if is_above {
            self.passed = self.passed.max(stamp);
        }
        let number = kept.number(stamp);
        if number >= self.reported {
            self.told.insert(number);
        }
        self.sent += 1;
        self.push(stamp, Flight { bytes: message.size(), number: self.sent });
        Some(message)
    }

    /// Notes that this report is sent, and how many messages were listed before it.
    pub fn report(&mut self, report: &Report, listed: u64) {
        (self.room, self.is_told_held) = (report.room, report.is_held);
        (self.reported, self.unreported) = (listed, 0);
        self.told.clear();
        (self.is_due, self.has_left_out) = (false, false);
        (self.news_due, self.lazy_due) = (NEVER, NEVER);
    }

    /// Whether a report is due by now. Those times that have come are past.
    pub fn is_report_due(&mut self, now: Time, kept: &Kept, is_held: bool, lazy: Time) -> bool {
        if self.is_told_held != is_held {
            self.lazy_due = self.lazy_due.min(now + lazy);
        }
        let mut is_due = false;
        if self.news_due <= now {
            self.news_due = NEVER;
            let theirs = self.theirs.as_ref();
            is_due = theirs.is_some_and(|it| kept.lag(&it.coverage) > self.brought);
        }
        if self.lazy_due <= now {
            self.lazy_due = NEVER;
            let has_news = kept.count > self.reported + self.told.len() as u64;
            is_due |= self.has_left_out || has_news || self.is_told_held != is_held;
        }
        is_due
    }

    /// When a report may be due next.
    pub fn wake(&self) -> Time {
        self.lazy_due.min(self.news_due)
    }
}

#[cfg(test)]
mod tests {
    use super::*;
    use rand::{Rng, SeedableRng, rngs::StdRng};
    use std::collections::BTreeSet;

    /// What the peer is sent next, by the words: the least listed message that its report lacks and that is not in flight.
    fn wanted(kept: &Kept, told: &Report, flying: &BTreeSet<u64>, room: u64) -> Option<u64> {
        let limit = if told.is_held { top(&told.coverage) } else { u64::MAX };
        let is_wanted = |it: &u64| *it <= limit && !told.coverage.has(*it) && !flying.contains(it);
        let flies = |it: &Message| flying.contains(&it.stamp);
        let in_flight: u64 = kept.iter().filter(flies).map(|it| it.size()).sum();
        kept.iter().map(|it| it.stamp).find(is_wanted).filter(|_| in_flight < room)
    }

    #[test]
    fn the_earliest_that_is_wanted_is_sent_and_nothing_else() {
        let mut random = StdRng::seed_from_u64(4);
        let bounds = Bounds { room: 2_000, ..Bounds::default() };
        for _ in 0..1_000 {
            let (mut kept, mut session) = (Kept::new(0, 1 << 20, 0), Session::new(0));
            let (mut told, mut flying, mut sent) = (Kept::new(0, 1 << 20, 0), BTreeSet::new(), 0);
            for _ in 0..80 {
                let (stamp, bytes) = (random.gen_range(1..200), vec![0; random.gen_range(0..400)]);
                let message = Message { author: 0, stamp, prev: stamp - 1, bytes: bytes.into() };
                match random.gen_range(0..4) {
                    0 if !kept.has(stamp) => {
                        session.note(stamp, message.size(), session.has(stamp));
                        kept.arrive(message, u64::MAX);
                    }
                    1 => {
                        told.arrive(message, u64::MAX);
                        let coverage = told.report().clone();
                        // What was left out is not in flight any more.
                        let done = if random.gen_bool(0.3) { sent } else { 0 };
                        flying.retain(|it: &u64| done == 0 && !coverage.has(*it));
                        let (room, is_held) = (random.gen_range(0..3_000), random.gen_bool(0.3));
                        session.replace(Report { coverage, since: 0, room, done, is_held });
                    }
                    _ => {
                        let next = session.next(&kept, &bounds).map(|it| it.stamp);
                        let Some(theirs) = &session.theirs else { continue };
                        let room = theirs.room.min(bounds.room);
                        assert_eq!(next, wanted(&kept, theirs, &flying, room));
                        flying.extend(next);
                        sent += u64::from(next.is_some());
                    }
                }
            }
        }
    }

    /// Above the top of a report that is cut off nobody knows what is had, and each message is sent once.
    #[test]
    fn what_no_report_shows_is_sent_once() {
        let (mut kept, mut session) = (Kept::new(0, 1 << 20, 0), Session::new(0));
        for stamp in (2..=200).step_by(2) {
            let message = Message { author: 0, stamp, prev: stamp - 1, bytes: vec![].into() };
            kept.arrive(message, u64::MAX);
        }
        let coverage = kept.report().clone();
        assert!(is_cut(&coverage) && top(&coverage) == 126);
        let report =
            |done| Report { coverage: coverage.clone(), room: 1_000, done, ..Report::up_to(0) };
        let mut sent = Vec::new();
        for _ in 0..100 {
            session.replace(report(sent.len() as u64));
            sent.extend(std::iter::from_fn(|| session.next(&kept, &Bounds::default())));
        }
        assert!(sent.iter().map(|it| it.stamp).eq((128..=200).step_by(2)));
    }
}
