//! Logs beside a plain model, which keeps all that came and finds what is to be listed by definition.

mod common;

use broadcast_node::log::{Arrived, AuthorLog, CHARGE, Message};
use broadcast_node::{Coverage, Error, Span};
use common::Random;
use std::collections::BTreeMap;

/// What came in time and sound, of each stamp the first.
struct Model {
    budget: u64,
    received: BTreeMap<u64, Message>,
}

impl Model {
    /// What the messages of this stamp and of later ones are charged.
    fn charge_from(&self, stamp: u64) -> u64 {
        self.received.range(stamp..).map(|(_, it)| it.bytes + CHARGE).sum()
    }

    /// The messages that fit the budget together with all later ones.
    fn listed(&self) -> Vec<Message> {
        let fits = |it: &&Message| self.charge_from(it.stamp) <= self.budget;
        self.received.values().filter(fits).copied().collect()
    }

    /// The greatest stamp of a message that does not fit so.
    fn floor(&self) -> u64 {
        let gone = self.received.keys().filter(|it| self.charge_from(**it) > self.budget);
        gone.max().copied().unwrap_or(0)
    }

    /// Takes a message, and says what becomes of it.
    fn arrive(&mut self, message: Message, latest: u64) -> Arrived {
        let is_known = message.stamp <= self.floor()
            || self.listed().iter().any(|it| it.stamp == message.stamp);
        if message.stamp > latest {
            return Arrived::Untimely;
        }
        if message.prev >= message.stamp || is_known {
            return Arrived::Refused;
        }
        if message.bytes + CHARGE > self.budget {
            return Arrived::Oversize;
        }
        self.received.insert(message.stamp, message);
        if self.floor() < message.stamp { Arrived::Listed } else { Arrived::Passed }
    }

    /// Whether the floor or a listed message covers the stamp.
    fn covers(&self, stamp: u64) -> bool {
        let spans = self.listed().into_iter().map(|it| (it.prev, it.stamp));
        std::iter::once((0, self.floor()))
            .chain(spans)
            .any(|(from, to)| from < stamp && stamp <= to)
    }
}

fn listed(log: &AuthorLog) -> Vec<Message> {
    (0..log.len()).map_while(|it| log.get(it)).collect()
}

/// A message with a stamp up to 99, whose `prev` is mostly close before it.
fn any_message(random: &mut Random, handle: u64) -> Message {
    let stamp = random.below(100);
    let prev = stamp.saturating_sub(random.below(4));
    Message { prev, stamp, bytes: random.below(60), handle }
}

#[test]
fn lists_the_newest_that_fit() {
    let mut random = Random::new(1);
    for _ in 0..60 {
        let budget = random.below(2_000);
        let mut log = AuthorLog::new(budget).unwrap();
        let mut model = Model { budget, received: BTreeMap::new() };
        let mut there: Vec<u64> = Vec::new();
        for handle in 0..60 {
            let (message, latest) = (any_message(&mut random, handle), random.below(150));
            let mut left = vec![7];
            let arrived = log.arrive(message, latest, &mut left);
            assert_eq!(arrived, Ok(model.arrive(message, latest)), "{message:?}");
            assert_eq!((log.floor(), listed(&log)), (model.floor(), model.listed()));
            assert_eq!(log.bytes(), log_bytes(&log));
            // Each handle leaves once, at the call for which its message leaves.
            if let Ok(Arrived::Listed | Arrived::Passed) = arrived {
                there.push(handle);
            }
            let now: Vec<u64> = listed(&log).iter().map(|it| it.handle).collect();
            let mut gone: Vec<u64> = there.iter().copied().filter(|it| !now.contains(it)).collect();
            there.retain(|it| now.contains(it));
            gone.sort_unstable();
            assert_eq!(left.remove(0), 7);
            left.sort_unstable();
            assert_eq!(left, gone);
            let stamp = random.below(100);
            let found = model.listed().into_iter().find(|it| it.stamp == stamp);
            assert_eq!(log.find(stamp), found);
            assert_eq!(log.has(stamp), stamp <= model.floor() || found.is_some());
        }
    }
}

fn log_bytes(log: &AuthorLog) -> u64 {
    listed(log).iter().map(|it| it.bytes + CHARGE).sum()
}

/// A coverage with up to four spans above its floor.
fn any_coverage(random: &mut Random) -> Coverage {
    let mut at = random.below(20);
    let floor = at;
    let mut spans = Vec::new();
    for _ in 0..random.below(5) {
        let from = at + 1 + random.below(15);
        at = from + 1 + random.below(15);
        spans.push(Span { from, to: at });
    }
    Coverage::reported(floor, spans).unwrap().unwrap()
}

#[test]
fn sends_the_least_that_a_peer_lacks() {
    let mut random = Random::new(2);
    for _ in 0..300 {
        let mut log = AuthorLog::new(3_000).unwrap();
        for handle in 0..random.below(40) {
            log.arrive(any_message(&mut random, handle), 99, &mut Vec::new()).unwrap();
        }
        let (reported, sent) = (any_coverage(&mut random), random.below(100));
        let flights = random.below(6);
        let in_flight: Vec<u64> = (0..flights).map(|_| random.below(100)).collect();
        let top = reported.spans().last().map_or(reported.floor(), |it| it.to);
        let is_lacking =
            |it: &Message| !reported.has(it.stamp) && (it.stamp <= top || sent < it.stamp);
        let mut due =
            listed(&log).into_iter().filter(|it| is_lacking(it) && !in_flight.contains(&it.stamp));
        assert_eq!(log.next(&reported, sent, &in_flight, 9, 10), due.next());
        assert_eq!(log.next(&reported, sent, &in_flight, 10, 10), None);
        let lacking = listed(&log).into_iter().filter(|it| !reported.has(it.stamp));
        assert_eq!(log.lag(&reported), lacking.map(|it| it.bytes + CHARGE).sum::<u64>());
    }
}

#[test]
fn a_report_shows_what_is_listed_and_nothing_that_is_not_covered() {
    let mut random = Random::new(3);
    for _ in 0..100 {
        let budget = random.below(4_000);
        let mut log = AuthorLog::new(budget).unwrap();
        let mut model = Model { budget, received: BTreeMap::new() };
        for handle in 0..random.below(50) {
            let message = any_message(&mut random, handle);
            log.arrive(message, 99, &mut Vec::new()).unwrap();
            model.arrive(message, 99);
        }
        let report = log.report().unwrap();
        // A message may cover stamps of an earlier one too; then a report shows less than is covered.
        assert!((0..101).all(|it| !report.has(it) || model.covers(it)), "{report:?}");
        assert!(model.listed().iter().all(|it| report.has(it.stamp)), "{report:?}");
        assert!((1..=model.floor()).all(|it| report.has(it)), "{report:?}");
    }
}

#[test]
fn a_report_is_cut_off_above() {
    let mut log = AuthorLog::new(10_000).unwrap();
    for it in 1..=70 {
        let message = Message { prev: 10 * it, stamp: 10 * it + 1, bytes: 0, handle: it };
        log.arrive(message, u64::MAX, &mut Vec::new()).unwrap();
    }
    let report = log.report().unwrap();
    assert!(report.spans().len() == Coverage::MOST && report.has(631) && !report.has(641));
    // A message above the top is sent once.
    assert_eq!(log.next(&report, 0, &[], 0, 1), log.find(641));
    assert_eq!(log.next(&report, 641, &[], 0, 1), log.find(651));
    assert_eq!(log.next(&report, 701, &[], 0, 1), None);
}

#[test]
fn logs_to_which_the_same_came_are_the_same() {
    let mut random = Random::new(4);
    for _ in 0..100 {
        let mut messages: Vec<Message> = (1..40)
            .map(|stamp| Message { prev: stamp - 1, stamp, bytes: random.below(60), handle: stamp })
            .collect();
        let budget = random.below(3_000);
        let mut logs = [AuthorLog::new(budget).unwrap(), AuthorLog::new(budget).unwrap()];
        for log in &mut logs {
            for _ in 0..80 {
                let (one, other) = (random.place(39), random.place(39));
                messages.swap(one, other);
                log.arrive(messages[one], 99, &mut Vec::new()).unwrap();
            }
            for message in &messages {
                log.arrive(*message, 99, &mut Vec::new()).unwrap();
            }
        }
        let [first, second] = &logs;
        assert_eq!((first.floor(), listed(first)), (second.floor(), listed(second)));
    }
}

#[test]
fn a_log_of_the_least_budget_has_no_room() -> Result<(), Error> {
    let mut log = AuthorLog::new(0)?;
    let message = Message { prev: 0, stamp: u64::MAX, bytes: u64::MAX, handle: 0 };
    assert_eq!(log.arrive(message, u64::MAX, &mut Vec::new())?, Arrived::Oversize);
    assert!(log.is_empty() && log.floor() == 0 && log.lag(&Coverage::new(0)?) == 0);
    let mut log = AuthorLog::new(u64::MAX)?;
    let message = Message { prev: 0, stamp: u64::MAX, bytes: u64::MAX - CHARGE, handle: 0 };
    assert_eq!(log.arrive(message, u64::MAX, &mut Vec::new())?, Arrived::Listed);
    assert_eq!((log.bytes(), log.lag(&Coverage::new(0)?)), (u64::MAX, u64::MAX));
    Ok(())
}
