//! One relay: what comes in, what goes out, and when to look again.

use super::links::{Link, Links};
use super::log::Log;
use super::view::View;
use super::{Bounds, Frame, Malformed, Message, NEVER, Report, SECOND, Time};
use broadcast_node::log::Arrived;
use bytes::Bytes;

/// What is known of an author from before a start: a floor, up to which all counts as had, and messages.
#[derive(Clone, Debug, Default)]
pub struct Past {
    pub floor: u64,
    pub messages: Vec<Message>,
}

/// What became of a message.
#[derive(Clone, Copy, Debug, PartialEq, Eq)]
pub enum Taken {
    New,
    /// It was had before.
    Again,
    /// It is left out, and may come again.
    LeftOut,
    /// Its author is not listed.
    Unlisted,
}

/// What is awaited before the first own message: what the peers have of the own log. So no stamp is used that they cover already, and
/// nothing is published that nobody is there to get.
#[derive(Debug, Default)]
struct Start {
    is_over: bool,
    /// When the wait began, and when the first peer had reported all that it lists.
    began: Option<Time>,
    met: Option<Time>,
    /// Nobody came for long.
    is_late: bool,
    /// When it is to be looked at again.
    wake: Time,
}

/// For how long others are awaited once one peer has reported.
const OTHERS: Time = SECOND;

/// Authors and peers are one set of nodes, which have the same numbers: `0..`, in the order in which they were added.
#[derive(Debug)]
pub struct Machine {
    bounds: Bounds,
    own: usize,
    /// The stamp of the last own message, if it is known.
    last: Option<u64>,
    /// No stamp above it is accepted of others.
    latest: u64,
    start: Start,
    logs: Vec<Log>,
    links: Links,
    spread: u64,
}

impl Machine {
    /// Creates a relay that is the node `own`. Other relays have another `spread`.
    pub fn new(bounds: Bounds, own: usize, spread: u64) -> Machine {
        let (last, start, logs, links) = (None, Start::default(), Vec::new(), Links::default());
        Machine { bounds, own, last, latest: u64::MAX, start, logs, links, spread }
    }

    /// Adds a node. Returns its number.
    pub fn add(&mut self, now: Time, past: Past) -> usize {
        let node = self.logs.len();
        let mut log = Log::new(now, node, &self.bounds, self.spread.wrapping_mul(31));
        (0..node).for_each(|_| log.add_view());
        self.logs.push(log);
        self.links.each.push(Link::default());
        self.links.left_behind.push(0);
        self.logs.iter_mut().for_each(Log::add_view);
        self.restore(now, node, past);
        node
    }

    /// Lists an author, from now on or again. What was had of it before stays had.
    pub fn restore(&mut self, now: Time, node: usize, past: Past) {
        let log = &mut self.logs[node];
        log.restore(past);
        if node == self.own && log.kept.top() > 0 {
            self.last = Some(log.kept.top());
        }
        let peers: Vec<usize> = self.links.others(None).collect();
        for peer in peers {
            self.logs[node].connect(peer, &mut self.links);
        }
        self.step(now, node);
    }

    /// Neither takes nor sends messages of an author any more.
    pub fn remove(&mut self, now: Time, node: usize) {
        self.disconnect(now, node);
        let count = self.logs.len();
        let log = &mut self.logs[node];
        (0..count).for_each(|peer| log.disconnect(now, peer));
        log.remove();
        // It is waited for no more.
        self.logs.iter_mut().for_each(|it| it.forget(node));
    }

    fn listed(&self) -> Vec<usize> {
        (0..self.logs.len()).filter(|&it| self.logs[it].is_listed).collect()
    }

    // What comes in.

    /// A connection begins. The own log is reported last, so the peer knows then which authors are listed here.
    pub fn connect(&mut self, now: Time, peer: usize, round_trip: Time) {
        self.links.connect(peer, round_trip);
        let mut authors = self.listed();
        authors.sort_by_key(|it| *it == self.own);
        for author in authors {
            self.logs[author].connect(peer, &mut self.links);
            self.step(now, author);
        }
    }

    pub fn disconnect(&mut self, now: Time, peer: usize) {
        self.links.each[peer] = Link::default();
        for author in self.listed() {
            self.logs[author].disconnect(now, peer);
            self.step(now, author);
        }
    }

    /// Whether an own message may be published: no peer that is waited for is too far behind, and it is known what peers have. If
    /// nobody comes for long, half of a list may be published for whoever comes later.
    pub fn may_publish(&self) -> bool {
        let log = &self.logs[self.own];
        let is_alone = self.start.is_late && self.start.met.is_none();
        let has_room = is_alone && log.kept.bytes() < self.bounds.behind;
        !log.is_held && (self.start.is_over || has_room)
    }

    /// Sees whether the first own message need wait no more: peers have reported, all that are listed or for a while, and what they
    /// have of the own log has come, or time is over.
    fn begin(&mut self, now: Time) {
        if self.start.is_over {
            return;
        }
        let patience = self.bounds.patience;
        let peers: Vec<usize> = self.listed().into_iter().filter(|it| *it != self.own).collect();
        let has_reported = |it: &&usize| self.links.each[**it].has_reported;
        let count = peers.iter().filter(has_reported).count();
        // Who was asked for a while has claimed what it does not bring.
        let slow = self.bounds.slow;
        let own = &mut self.logs[self.own];
        let report = own.kept.report();
        let shows = |it: &View| it.session.shows(report, u64::MAX).is_some();
        let has_failed = |it: &View| it.is_asked && now >= it.asked_at + slow;
        let is_claimed = |it: &View| shows(it) && !has_failed(it);
        let is_behind = own.views.iter().any(is_claimed);
        let start = &mut self.start;
        let began = *start.began.get_or_insert(now);
        if count > 0 {
            start.met.get_or_insert(now);
        }
        start.is_late |= now >= began + patience;
        (start.is_over, start.wake) = match start.met {
            None if start.is_late => (peers.is_empty(), NEVER),
            None => (peers.is_empty(), began + patience),
            Some(met) if is_behind => {
                (now >= met + patience, (met + patience).min(now + OTHERS / 4))
            }
            Some(met) => (count == peers.len() || now >= met + OTHERS, met + OTHERS),
        };
    }

    /// The interval of the next own message, by the time of a clock. After a start without a journal the first message covers nothing
    /// that peers may lack.
    pub fn next_own(&self, clock: u64) -> (u64, u64) {
        let top = self.logs[self.own].kept.top();
        let stamp = clock.max(top + 1);
        (if self.last == Some(top) { top } else { stamp - 1 }, stamp)
    }

    /// Publishes an own message, whose interval is that of `next_own`.
    pub fn publish(&mut self, now: Time, prev: u64, stamp: u64, bytes: Bytes) {
        self.last = Some(stamp);
        self.accept(now, None, Message { author: self.own, stamp, prev, bytes }, u64::MAX);
    }

    /// From now on no stamp above this one is accepted of others.
    pub fn set_latest(&mut self, latest: u64) {
        self.latest = latest;
    }

    /// Whether a message of a peer is taken, if its signature holds. Else that is not worth a check.
    pub fn wants(&self, now: Time, peer: usize, message: &Message) -> bool {
        self.logs[message.author].wants(now, peer, message, self.latest)
    }

    /// Takes a message of a peer, if it was wanted since another message of its author came. Its signature holds then. It is of no
    /// peer if its connection has been replaced.
    pub fn message(
        &mut self,
        now: Time,
        from: Option<usize>,
        message: Message,
        was_wanted: bool,
    ) -> Result<Taken, Malformed> {
        if message.prev >= message.stamp || message.size() > self.bounds.largest {
            return Err(Malformed);
        }
        let log = &mut self.logs[message.author];
        if !log.is_listed {
            return Ok(Taken::Unlisted);
        }
        let (stamp, size) = (message.stamp, message.size());
        let session = from.map(|it| &mut log.views[it].session);
        if let Some(session) = session {
            session.note_came(size);
            if log.kept.has(stamp) {
                session.note_brought(stamp, size);
            }
        }
        if log.kept.has(stamp) {
            return Ok(Taken::Again);
        }
        if !was_wanted {
            // What is too far in the future is not to be sent again soon.
            let from = from.filter(|_| stamp <= self.latest);
            from.into_iter().for_each(|it| log.leave_out(now, it));
            return Ok(Taken::LeftOut);
        }
        log.bucket.charge(now, size.max(self.bounds.least));
        let is_own = message.author == self.own;
        let taken = match self.accept(now, from, message, self.latest) {
            Arrived::Listed | Arrived::Passed => Taken::New,
            Arrived::Refused => Taken::Again,
            _ => Taken::LeftOut,
        };
        if is_own {
            self.begin(now);
        }
        Ok(taken)
    }

    /// Takes a peer's report of an author.
    pub fn report(&mut self, now: Time, peer: usize, author: usize, report: Report) {
        let is_of_own = author == self.own;
        let log = &mut self.logs[author];
        if log.is_listed {
            if self.links.each[peer].has_reported && log.views[peer].session.theirs.is_none() {
                // It has listed the author only now, and did not hear what was reported before.
                log.queue_report(peer, &mut self.links);
            }
            log.hear(now, peer, report);
            log.queue_turn(peer, &mut self.links);
            self.step(now, author);
        }
        if author == peer && !std::mem::replace(&mut self.links.each[peer].has_reported, true) {
            self.listed().into_iter().for_each(|it| self.step(now, it));
        }
        if is_of_own || author == peer {
            self.begin(now);
        }
    }

    /// Charges an author for something beside the bytes of its messages.
    pub fn charge(&mut self, now: Time, author: usize, amount: u64) {
        self.logs[author].bucket.charge(now, amount);
    }

    /// Does what is due by now.
    pub fn timeout(&mut self, now: Time) {
        if self.start.wake <= now {
            self.begin(now);
        }
        for author in 0..self.logs.len() {
            if self.logs[author].wake <= now {
                self.step(now, author);
            }
        }
    }

    // What goes out.

    /// When `timeout` is due.
    pub fn next_time(&self) -> Time {
        let start = if self.start.is_over { NEVER } else { self.start.wake };
        self.logs.iter().map(|it| it.wake).min().unwrap_or(NEVER).min(start)
    }

    /// The peers for whom there may be frames since the last call.
    pub fn take_woken(&mut self) -> Vec<usize> {
        std::mem::take(&mut self.links.woken)
    }

    /// The next frame for a peer, to be called whenever its connection can carry one.
    pub fn frame(&mut self, now: Time, peer: usize) -> Option<Frame> {
        if let Some(author) = self.links.each[peer].reports.pop_front() {
            return Some(Frame::Report(author, self.logs[author].report_to(now, peer)));
        }
        while let Some(author) = self.links.each[peer].turns.pop_front() {
            let log = &mut self.logs[author];
            let session = &mut log.views[peer].session;
            if let Some(message) = session.next(&log.kept, &self.bounds) {
                self.links.push_turn(peer, author);
                return Some(Frame::Message(message));
            }
            session.has_turn = false;
        }
        None
    }

    pub fn log(&self, author: usize) -> &Log {
        &self.logs[author]
    }

    /// How many messages left a list here while a peer lacked them, that is connected or was.
    pub fn left_behind(&self, peer: usize) -> u64 {
        self.links.left_behind[peer]
    }

    /// Whether a peer stands still, so that nobody waits for it any more.
    pub fn is_stalled(&self, now: Time, peer: usize) -> bool {
        let logs = self.logs.iter().filter(|it| it.is_listed && it.has_stalled);
        logs.into_iter().any(|it| it.views[peer].stands_still(now))
    }

    /// Whether a peer lacks own messages, as far as is known.
    pub fn lacks_own(&self, peer: usize) -> bool {
        self.logs[self.own].lacks(peer, &self.links) > 0
    }

    fn accept(&mut self, now: Time, from: Option<usize>, message: Message, latest: u64) -> Arrived {
        let author = message.author;
        let log = &mut self.logs[author];
        let (arrived, is_due) = log.accept(now, from, (message, latest), &mut self.links);
        if is_due {
            self.step(now, author);
        }
        arrived
    }

    fn step(&mut self, now: Time, author: usize) {
        self.logs[author].step(now, &mut self.links);
    }
}
