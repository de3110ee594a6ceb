//! A peer, as far as one author's log goes: what it has, whether it is asked, and whether it is waited for.

use super::pace::{Patience, Wait};
use super::session::Session;
use super::{Bounds, Coverage, Kept, NEVER, Report, SECOND, Time};

#[derive(Debug)]
pub struct View {
    pub session: Session,
    /// What it had when its connection ended, until it reports again.
    pub past: Option<Coverage>,
    /// When it last came nearer, whoever brought it what it lacked.
    moved: Time,
    /// It is asked to bring what is new, and when it was last.
    pub is_asked: bool,
    pub asked_at: Time,
    pub patience: Patience,
    pub is_waited_for: bool,
    /// Its patience is over, so nobody waits for it until it is near again.
    pub is_stalled: bool,
}

impl View {
    pub fn new(bounds: &Bounds) -> View {
        View {
            session: Session::new(0),
            past: None,
            moved: 0,
            is_asked: false,
            asked_at: 0,
            patience: Patience::new(bounds.patience),
            is_waited_for: false,
            is_stalled: false,
        }
    }

    /// Takes a report, unless that takes something back. What was sent and has landed renews the peer's patience.
    pub fn hear(&mut self, now: Time, report: Report, kept: &Kept, pace: u64) {
        let lacks = |session: &Session| {
            let lag = session.theirs.as_ref().map(|it| kept.lag(&it.coverage));
            lag.map(|it| it.saturating_sub(session.brought))
        };
        let before = lacks(&self.session);
        let Some(landed) = self.session.replace(report) else { return };
        self.past = None;
        self.patience.renew(now, landed, pace);
        if lacks(&self.session) < before {
            self.moved = now;
        }
    }

    /// Decides whether the peer is waited for. Returns when its patience ends.
    pub fn judge(&mut self, now: Time, lacks: u64, bounds: &Bounds) -> Time {
        let step = if self.is_waited_for { bounds.step() } else { 0 };
        self.is_waited_for = !self.is_stalled && lacks > bounds.behind - step;
        // Patience runs from an eighth on: who stands still is known before it holds an author back.
        let is_behind = !self.is_stalled && lacks > bounds.behind / 8;
        let still = self.moved + SECOND;
        if is_behind && !self.is_waited_for && now < still {
            self.patience.wait(now, Wait::No);
            return still;
        }
        let wait = match (self.is_waited_for || is_behind, self.session.is_held()) {
            (false, _) => Wait::No,
            (true, false) => Wait::Yes,
            (true, true) => Wait::Held,
        };
        let end = self.patience.wait(now, wait);
        if end <= now {
            self.give_up(now);
            return NEVER;
        }
        end
    }

    /// Whether nobody waits for it any more, and it does not come nearer either.
    pub fn stands_still(&self, now: Time) -> bool {
        self.is_stalled && now >= self.moved + SECOND
    }

    pub fn give_up(&mut self, now: Time) {
        (self.is_stalled, self.is_waited_for) = (true, false);
        self.patience.wait(now, Wait::No);
    }
}
