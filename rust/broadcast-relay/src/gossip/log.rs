//! One author's log, and all that is decided for it: who is waited for, who is to get a report; `asks` says who is to bring it.

use super::asks::Asks;
use super::kept::{Kept, top};
use super::links::{Link, Links};
use super::pace::{Patience, Wait};
use super::session::Session;
use super::view::View;
use super::{Bounds, Bucket, Coverage, Message, NEVER, Past, Report, Time};
use broadcast_node::log::Arrived;
use std::collections::BTreeMap;

/// How many gaps are looked at.
const MOST_LACKING: usize = 64;

#[derive(Debug)]
pub struct Log {
    pub author: usize,
    pub is_listed: bool,
    pub kept: Kept,
    /// The upper ends of the gaps: the stamps of messages that did not come, though the next one names them; and since when no connected
    /// peer can send each of them. How many are lost. When the author was last connected.
    lacking: BTreeMap<u64, Time>,
    pub lost: u64,
    seen: Time,
    /// Some peer is not waited for any more.
    pub has_stalled: bool,
    pub bounds: Bounds,
    pub bucket: Bucket,
    pub views: Vec<View>,
    pub asks: Asks,
    /// A peer is waited for; and how many bytes are left until one is.
    pub is_held: bool,
    left: u64,
    /// For how long this relay may still hold the author back, whoever is the cause.
    patience: Patience,
    /// The bytes that came since the last step.
    unchecked: u64,
    /// When a step is due.
    pub wake: Time,
    /// So that not all relays report at the same time.
    spread: u64,
}

impl Log {
    pub fn new(now: Time, author: usize, bounds: &Bounds, spread: u64) -> Log {
        Log {
            author,
            is_listed: true,
            kept: Kept::new(author, bounds.list, 0),
            lacking: BTreeMap::new(),
            lost: 0,
            seen: now,
            has_stalled: false,
            bounds: bounds.clone(),
            bucket: Bucket::new(bounds.rate, bounds.burst),
            views: Vec::new(),
            asks: Asks::default(),
            is_held: false,
            left: bounds.behind,
            patience: Patience::new(bounds.patience),
            unchecked: 0,
            wake: NEVER,
            spread,
        }
    }

    /// Adds the next peer.
    pub fn add_view(&mut self) {
        self.views.push(View::new(&self.bounds));
    }

    pub fn connect(&mut self, peer: usize, links: &mut Links) {
        let view = &mut self.views[peer];
        view.session = Session::new(self.kept.top());

        self.queue_report(peer, links);
    }

    pub fn disconnect(&mut self, now: Time, peer: usize) {
        if peer == self.author {
            self.seen = now;
        }
        let view = &mut self.views[peer];
        view.is_asked = false;
        let session = std::mem::replace(&mut view.session, Session::new(0));
        view.past = session.theirs.map(|it| it.coverage).or(view.past.take());
    }

    /// Waits for a peer no more that is not listed any more.
    pub fn forget(&mut self, peer: usize) {
        let view = &mut self.views[peer];
        (view.past, view.is_stalled, view.is_waited_for) = (None, false, false);
    }

    /// Begins with what was had before.
    pub fn restore(&mut self, past: Past) {
        self.is_listed = true;
        self.kept.restore(past);
    }

    /// Neither accepts nor keeps anything any more.
    pub fn remove(&mut self) {
        (self.is_listed, self.wake) = (false, NEVER);
        self.kept.clear();
    }

    /// Replaces a peer's report.
    pub fn hear(&mut self, now: Time, peer: usize, report: Report) {
        self.views[peer].hear(now, report, &self.kept, self.bounds.pace);
    }

    /// Notes the upper end of a gap. What is before the first message that came was before this relay's time.
    fn note_lacking(&mut self, stamp: u64) {
        let first = match self.kept.floor() {
            0 => self.kept.get(0).map_or(u64::MAX, |it| it.stamp),
            floor => floor,
        };
        if stamp > first && self.lacking.len() < MOST_LACKING {
            self.lacking.entry(stamp).or_insert(NEVER);
        }
    }

    /// Lets messages be sent to a peer.
    pub fn queue_turn(&mut self, peer: usize, links: &mut Links) {
        let session = &mut self.views[peer].session;
        if !session.has_turn && session.has_room() {
            session.has_turn = true;
            links.push_turn(peer, self.author);
        }
    }

    pub fn queue_report(&mut self, peer: usize, links: &mut Links) {
        let session = &mut self.views[peer].session;
        if links.each[peer].is_connected && !session.is_due {
            session.is_due = true;
            links.push_report(peer, self.author);
        }
    }

    /// Whether a message of a peer is accepted, if its stamp is not later than `latest`. A peer without room may only go on where
    /// something was had, and the author say what it likes.
    pub fn wants(&self, now: Time, peer: usize, it: &Message, latest: u64) -> bool {
        let has_room = self.views[peer].session.allowed >= it.size();
        let goes_on = peer == self.author || (it.prev > 0 && self.kept.has(it.prev));
        self.is_listed
            && it.stamp <= latest
            && !self.kept.has(it.stamp)
            && (has_room || (goes_on && self.bucket.level(now) > 0))
    }

    /// Notes a message that is left out. Its sender is told soon, and may send it again.
    pub fn leave_out(&mut self, now: Time, peer: usize) {
        let session = &mut self.views[peer].session;
        session.has_left_out = true;
        session.lazy_due = session.lazy_due.min(now + self.bounds.lazy);
        self.wake = self.wake.min(session.lazy_due);
    }

    /// Accepts a message, lists it, and sees who is to get it or hear of it. Returns what became of it, and whether a step is due.
    pub fn accept(
        &mut self,
        now: Time,
        from: Option<usize>,
        (it, latest): (Message, u64),
        links: &mut Links,
    ) -> (Arrived, bool) {
        let (prev, stamp, size) = (it.prev, it.stamp, it.size());
        let (arrived, gone) = self.kept.arrive(it, latest);
        if !matches!(arrived, Arrived::Listed | Arrived::Passed) {
            return (arrived, false);
        }
        self.note_arrived(prev, stamp, &gone, links);
        self.patience.renew(now, size, self.bounds.pace);
        if let Some(from) = from.filter(|it| self.is_asked(*it)) {
            self.note_brought(now, from, stamp, size);
        }
        if arrived == Arrived::Passed {
            return (arrived, false);
        }
        from.into_iter().for_each(|it| self.views[it].session.note_brought(stamp, size));
        for peer in 0..self.views.len() {
            if links.each[peer].is_connected {
                let has = self.views[peer].session.has(stamp);
                self.offer(now, peer, (stamp, size, has), links);
            }
        }
        self.unchecked += size;
        (arrived, self.unchecked >= self.bounds.behind / 16)
    }

    /// Counts what a message that came leaves lost here or at peers: what left the list for it, and what is below the floor now.
    fn note_arrived(&mut self, prev: u64, stamp: u64, gone: &[u64], links: &mut Links) {
        self.lacking.retain(|it, _| *it <= prev || *it > stamp);
        if !self.kept.has(prev) {
            self.note_lacking(prev);
        }
        for &gone in gone {
            let lacks = |it: &usize| {
                let session = &self.views[*it].session;
                self.had(*it, links).is_some_and(|it| !it.has(gone))
                    && session.theirs.as_ref().is_none_or(|_| !session.has(gone))
                    && !session.flies(gone)
            };
            let peers: Vec<usize> = (0..self.views.len()).filter(lacks).collect();
            peers.into_iter().for_each(|it| links.left_behind[it] += 1);
        }
        let floor = self.kept.floor();
        self.lose(|stamp, _| stamp <= floor);
    }

    /// Counts what is lacking and cannot come any more as lost.
    fn lose(&mut self, is_lost: impl Fn(u64, Time) -> bool) {
        let before = self.lacking.len();
        self.lacking.retain(|stamp, since| !is_lost(*stamp, *since));
        self.lost += (before - self.lacking.len()) as u64;
    }

    /// Sends a peer what is new, or reports it: soon if the peer lacks it, at once if much came, and else at leisure.
    fn offer(
        &mut self,
        now: Time,
        peer: usize,
        (stamp, size, has): (u64, u64, bool),
        links: &mut Links,
    ) {
        let View { session, is_asked, .. } = &mut self.views[peer];
        let gaps = session.theirs.as_ref().map_or(0, |it| it.coverage.spans().len());
        let join = self.bounds.join * (1 + gaps as u64 / 2);
        let (may_send, is_news) = session.note(stamp, size, has);
        if is_news && session.news_due == NEVER {
            // Who is first spares the other its report.
            let spread = (stamp ^ (self.spread + peer as u64)).wrapping_mul(0x9e37_79b9_7f4a_7c15);
            session.news_due = now + join + (spread >> 33) % (2 * join).max(1);
        }
        session.lazy_due = session.lazy_due.min(now + self.bounds.lazy);
        self.wake = self.wake.min(session.wake());
        let most = match is_asked {
            true => session.room.min(self.bounds.room) / 4,
            false => self.bounds.behind / 4,
        };
        let is_due = session.unreported >= most;
        if may_send {
            self.queue_turn(peer, links);
        }
        if is_due {
            self.queue_report(peer, links);
        }
    }

    /// Decides all that depends on reports and on time.
    pub fn step(&mut self, now: Time, links: &mut Links) {
        (self.wake, self.unchecked) = (NEVER, 0);
        self.settle(now, links);
        self.hold(now, links);
        self.choose(now, links);
        self.grant(now, links);
        self.report(now, links);
    }

    /// Sees what cannot come any more: what for a while no connected peer can send. While the author may come back, it has time to.
    fn settle(&mut self, now: Time, links: &Links) {
        if self.lacking.is_empty() {
            return;
        }
        let has_come = links.each[self.author].has_reported;
        let wait = match has_come || now >= self.seen + self.bounds.somebody {
            true => self.bounds.nobody,
            false => self.bounds.somebody,
        };
        let views = links.others(None).map(|it| &self.views[it]);
        let reports: Vec<_> = views.filter_map(|it| it.session.theirs.as_ref()).collect();
        for (stamp, since) in &mut self.lacking {
            let can_send = |it: &&Report| it.since < *stamp && it.coverage.has(*stamp);
            let can_come = reports.is_empty() || reports.iter().any(can_send);
            *since = if can_come { NEVER } else { now.min(*since) };
            self.wake = self.wake.min(since.saturating_add(wait));
        }
        self.lose(|_, since| since.saturating_add(wait) <= now);
    }

    /// Decides which peers are waited for.
    fn hold(&mut self, now: Time, links: &Links) {
        let mut is_held = false;
        let behind = self.bounds.behind;
        self.left = behind;
        for (peer, Link { is_connected, .. }) in links.each.iter().enumerate() {
            let lacks = self.lacks(peer, links);
            let view = &mut self.views[peer];
            view.is_stalled &= lacks > behind / 2 || !is_connected;
            let end = view.judge(now, lacks, &self.bounds);
            is_held |= view.is_waited_for;
            if !view.is_stalled {
                self.left = self.left.min(behind.saturating_sub(lacks));
            }
            self.wake = self.wake.min(end);
        }
        // At the full price, and who waits for this relay pays half: so this relay gives up who stands still, and not the others
        // this relay.
        let end = self.patience.wait(now, if is_held { Wait::Yes } else { Wait::No });
        if end <= now {
            self.views.iter_mut().filter(|it| it.is_waited_for).for_each(|it| it.give_up(now));
            self.patience.wait(now, Wait::No);
            is_held = false;
        } else {
            self.wake = self.wake.min(end);
        }
        if self.is_held && !is_held {
            self.excuse(now);
        }
        self.is_held = is_held;
        self.has_stalled = self.views.iter().any(|it| it.is_stalled);
    }

    /// What the listed messages are charged that a peer lacks, as far as is known.
    pub fn lacks(&self, peer: usize, links: &Links) -> u64 {
        let lag = self.had(peer, links).map_or(0, |it| self.kept.lag(it));
        lag.saturating_sub(self.views[peer].session.brought)
    }

    /// What a peer has: by its report, or when its last connection ended. Until it has reported all that it lists, it may list this author
    /// too: then it lacks what is newer than the connection.
    fn had(&self, peer: usize, links: &Links) -> Option<&Coverage> {
        let (view, link) = (&self.views[peer], &links.each[peer]);
        match (&view.session.theirs, &view.past) {
            (Some(theirs), _) => Some(&theirs.coverage),
            (None, _) if link.has_reported || peer == self.author => None,
            (None, Some(past)) => Some(past),
            (None, None) => link.is_connected.then_some(&view.session.began),
        }
    }

    /// The least stamp that a peer shows and that is wanted.
    pub fn shown(&mut self, peer: usize) -> Option<u64> {
        let report = self.kept.report();
        let limit = if self.is_held { top(report) } else { u64::MAX };
        self.views[peer].session.shows(report, limit)
    }

    /// The room that a peer has now.
    fn room(&mut self, now: Time, peer: usize) -> u64 {
        if !self.views[peer].is_asked {
            return 0;
        }
        let (level, bounds) = (self.bucket.level(now), &self.bounds);
        if level < bounds.burst / 8 {
            return 0;
        }
        bounds.room.min(level).min(self.left.max(bounds.step()))
    }

    /// Reports to each peer whether it has room now, if that has changed.
    fn grant(&mut self, now: Time, links: &mut Links) {
        for peer in 0..self.views.len() {
            let room = self.room(now, peer);
            let session = &self.views[peer].session;
            let is_news = (session.room == 0) != (room == 0);
            if self.views[peer].is_asked && room == 0 {
                self.wake = self.wake.min(self.bucket.when(now, self.bounds.burst / 8));
            }
            if is_news || (room > 0 && session.is_told_held != self.is_held) {
                self.queue_report(peer, links);
            }
        }
    }

    /// Sees who is to get a report now.
    fn report(&mut self, now: Time, links: &mut Links) {
        for peer in 0..self.views.len() {
            if !links.each[peer].is_connected {
                continue;
            }
            let session = &mut self.views[peer].session;
            let is_due = session.is_report_due(now, &self.kept, self.is_held, self.bounds.lazy);
            self.wake = self.wake.min(session.wake());
            if is_due {
                self.queue_report(peer, links);
            }
        }
    }

    /// The report for a peer, which is sent now.
    pub fn report_to(&mut self, now: Time, peer: usize) -> Report {
        let (room, is_held, since) = (self.room(now, peer), self.is_held, self.kept.floor());
        let session = &mut self.views[peer].session;
        let (coverage, done) = (self.kept.report().clone(), session.came);
        let report = Report { coverage, since, room, done, is_held };
        if room > 0 {
            session.allowed = self.bounds.room + self.bounds.largest;
        }
        session.report(&report, self.kept.count);
        report
    }
}
