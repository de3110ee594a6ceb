//! What time does: for how long somebody is refused, how fast something is taken, for how long a peer is waited for.

use super::{NEVER, SECOND, Time};
use broadcast_node::Bucket as Verified;

/// For how long a bar lasts at most.
const MOST: Time = 60 * SECOND;
/// The nanoseconds of a microsecond.
const NANOSECONDS: u64 = 1_000;

/// Refuses who failed.
#[derive(Clone, Copy, Debug, Default)]
pub struct Bar {
    pub failures: u32,
    until: Time,
    forgiven: Time,
}

impl Bar {
    /// Bars for 1, 2, 4 .. 60 s, the longer the more often. It begins with 1 s again where twice the last time, and at least `least`,
    /// went well. Returns for how long.
    pub fn fail(&mut self, now: Time, least: Time) -> Time {
        self.failures = if now >= self.forgiven { 1 } else { (self.failures + 1).min(7) };
        let span = (SECOND << (self.failures - 1)).min(MOST);
        self.until = now + span;
        self.forgiven = self.until + least.max(2 * span);
        span
    }

    /// Until when it lasts, if it does.
    pub fn until(&self, now: Time) -> Option<Time> {
        (now < self.until).then_some(self.until)
    }
}

/// Holds at most `burst`, and gains `rate` a second. What was promised before may overdraw it. The verified library decides.
#[derive(Clone, Debug)]
pub struct Bucket(Verified);

/// The library's times are nanoseconds.
fn nanoseconds(time: Time) -> u64 {
    time.saturating_mul(NANOSECONDS)
}

impl Bucket {
    /// Creates a full bucket.
    pub fn new(rate: u64, burst: u64) -> Bucket {
        Bucket(Verified::new(rate, burst, 0).expect("the verified library is linked"))
    }

    /// How much there is now, 0 if it is overdrawn.
    pub fn level(&self, now: Time) -> u64 {
        self.0.level(nanoseconds(now))
    }

    pub fn charge(&mut self, now: Time, amount: u64) {
        self.0.charge(nanoseconds(now), amount);
    }

    /// When the level is at least `amount`.
    pub fn when(&self, now: Time, amount: u64) -> Time {
        self.0.ready(nanoseconds(now), amount).map_or(NEVER, |it| it.div_ceil(NANOSECONDS))
    }
}

/// Waiting uses it up. It grows by a sixteenth of the time without a wait, and by what the peer takes, at `pace` bytes a second. So in
/// any span a peer holds an author back for at most `whole + span / 16 + taken / pace`, twice that if the peer is held itself.
#[derive(Clone, Debug)]
pub struct Patience {
    whole: i64,
    left: i64,
    at: Time,
    wait: Wait,
}

/// Whether a peer is waited for.
#[derive(Clone, Copy, Debug, PartialEq, Eq)]
pub enum Wait {
    No,
    Yes,
    /// The peer says that it is held back itself, so it has twice as long.
    Held,
}

impl Patience {
    pub fn new(whole: Time) -> Patience {
        Patience { whole: whole as i64, left: whole as i64, at: 0, wait: Wait::No }
    }

    fn settle(&mut self, now: Time) {
        let span = now.saturating_sub(self.at) as i64;
        self.left = match self.wait {
            Wait::Yes => self.left - span,
            Wait::Held => self.left - span / 2,
            Wait::No => (self.left + span / 16).min(self.whole),
        };
        self.at = self.at.max(now);
    }

    /// The peer took `bytes`.
    pub fn renew(&mut self, now: Time, bytes: u64, pace: u64) {
        self.settle(now);
        let gained = bytes.saturating_mul(SECOND) / pace.max(1);
        self.left = (self.left + gained.min(self.whole as u64) as i64).min(self.whole);
    }

    /// Begins or ends a wait. Returns when the patience ends.
    pub fn wait(&mut self, now: Time, wait: Wait) -> Time {
        self.settle(now);
        self.wait = wait;
        match wait {
            Wait::No => NEVER,
            Wait::Yes => now + self.left.max(0) as u64,
            Wait::Held => now + 2 * self.left.max(0) as u64,
        }
    }
}

#[cfg(test)]
mod tests {
    use super::*;
    use rand::{Rng, SeedableRng, rngs::StdRng};

    #[test]
    fn a_ban_grows_and_one_of_long_ago_is_forgiven() {
        let (mut bar, mut now) = (Bar::default(), 5 * SECOND);
        for seconds in [1, 2, 4, 8, 16, 32, 60, 60] {
            assert_eq!(bar.fail(now, 600 * SECOND), seconds * SECOND);
            now += seconds * SECOND;
            assert!(bar.until(now - 1) == Some(now) && bar.until(now).is_none());
        }
        let mut later = bar;
        assert_eq!(bar.fail(now + 599 * SECOND, 600 * SECOND), 60 * SECOND);
        assert_eq!(later.fail(now + 600 * SECOND, 600 * SECOND), SECOND);
        // Twice as long as the last one lasted.
        let mut bar = Bar::default();
        assert_eq!((bar.fail(0, 0), bar.fail(SECOND, 0)), (SECOND, 2 * SECOND));
        assert_eq!(bar.fail(7 * SECOND, 0), SECOND);
    }

    #[test]
    fn a_wait_is_bounded() {
        let mut random = StdRng::seed_from_u64(5);
        for _ in 0..2_000 {
            let (whole, pace) = (6 * SECOND, 64 << 10);
            let mut patience = Patience::new(whole);
            let (mut now, mut waited, mut took, mut waits) = (0, 0, 0, true);
            let mut end = patience.wait(now, Wait::Yes);
            for _ in 0..200 {
                let step = random.gen_range(0..SECOND);
                waited += if waits { step.min(end.saturating_sub(now)) } else { 0 };
                now += step;
                let bytes = random.gen_range(0..20_000);
                patience.renew(now, bytes, pace);
                took += bytes;
                waits = random.gen_bool(0.7);
                end = patience.wait(now, if waits { Wait::Yes } else { Wait::No });
                if waits && end <= now {
                    waits = false;
                    patience.wait(now, Wait::No);
                }
                let bound = whole + now / 16 + took * SECOND / pace;
                assert!(waited <= bound + 200, "{waited} {bound}");
            }
        }
    }
}
