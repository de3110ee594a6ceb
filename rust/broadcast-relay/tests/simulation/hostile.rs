//! What hostile relays do.

use crate::world::{Event, FULL, Kind, Random, World};
use broadcast_relay::gossip::{Frame, Message, Report, SECOND, top};
use bytes::Bytes;

impl World {
    /// Returns what a relay sends in place of what an honest one would, if anything.
    pub fn bend(&mut self, from: usize, to: usize, frame: Frame) -> Option<Frame> {
        let kind = self.nodes[from].kind;
        match frame {
            _ if kind == Kind::Honest => Some(frame),
            _ if kind == Kind::Silent => None,
            Frame::Report(author, report) if author != from => {
                Some(Frame::Report(author, self.bend_report(kind, (from, to), author, report)))
            }
            Frame::Message(message) if message.author != from => {
                self.brings(kind, (from, to), message.stamp).then_some(Frame::Message(message))
            }
            frame => Some(frame),
        }
    }

    /// Whether it sends a message of another author.
    fn brings(&mut self, kind: Kind, link: (usize, usize), stamp: u64) -> bool {
        let link = self.links.get_mut(&link).unwrap();
        match kind {
            Kind::Mute | Kind::Sly | Kind::Turns | Kind::Part | Kind::Push => false,
            Kind::Tenth => self.random.chance(10),
            Kind::Pact => !Random::new(stamp).chance(1),
            Kind::Drip if self.now < link.last_drip + SECOND => false,
            Kind::Drip => {
                link.last_drip = self.now;
                true
            }
            _ => true,
        }
    }

    fn bend_report(
        &mut self,
        kind: Kind,
        link: (usize, usize),
        author: usize,
        mut report: Report,
    ) -> Report {
        let now = self.now;
        match kind {
            Kind::Turns if now / 150_000 % 2 == 1 => report.coverage = Report::up_to(0).coverage,
            Kind::Mute | Kind::Turns | Kind::Part | Kind::Tenth => {
                report.coverage = Report::up_to(now + 1_000_000_000).coverage;
                report.since = 0;
            }
            Kind::Empty => report.coverage = Report::up_to(0).coverage,
            Kind::Lag | Kind::Again | Kind::Creep => {
                let is_full = self.nodes[author].rate == FULL;
                let link = self.links.get_mut(&link).unwrap();
                let entry = link.frozen.entry(author).or_insert((now, report.coverage.clone()));
                let is_true = kind == Kind::Again && now % (8 * SECOND) > 7 * SECOND;
                if top(&entry.1) == 0 || is_true {
                    entry.1 = report.coverage.clone();
                }
                if kind == Kind::Creep && now > entry.0 + 100_000 && top(&entry.1) > 0 {
                    let upto = top(&entry.1) + if is_full { 1_000 } else { 20_000 };
                    if upto < top(&report.coverage) {
                        entry.1 = Report::up_to(upto).coverage;
                    }
                    entry.0 = now;
                }
                report.coverage = entry.1.clone();
            }
            _ => {}
        }
        report
    }

    /// Ends all its connections, and begins them anew at once.
    pub fn leave(&mut self, number: usize) {
        for peer in self.near[number].clone() {
            self.cut(number, peer);
            self.connect(number.min(peer), number.max(peer));
        }
        if self.now < self.scene.stop {
            self.at(self.now + SECOND, Event::Leave(number));
        }
    }

    /// Sends others' messages unasked, in any order.
    pub fn push(&mut self, number: usize) {
        let (now, is_half) = (self.now, self.nodes[number].kind == Kind::Part);
        for to in self.near[number].clone() {
            let link = &self.links[&(number, to)];
            let is_idle = link.is_up && link.transit < 200_000;
            for _ in 0..if is_idle { 8 } else { 0 } {
                let author = self.random.below(self.nodes.len() as u64) as usize;
                let kept = &self.nodes[number].machine.as_ref().unwrap().log(author).kept;
                let count = kept.len() as u64;
                if author == number || count == 0 {
                    continue;
                }
                // Mostly of the newest.
                let most = if self.random.chance(50) { count } else { count.min(20) };
                let place = count - 1 - self.random.below(most);
                let Some(message) = kept.get(place as usize) else { continue };
                if is_half && Random::new(message.stamp).chance(50) {
                    continue;
                }
                self.send(number, to, Frame::Message(message));
            }
        }
        if now < self.scene.end - 10 * SECOND {
            self.at(now + 10_000, Event::Push(number));
        }
    }

    /// Sends a hostile author's messages, as no relay would.
    pub fn raw(&mut self, author: usize) {
        let now = self.now;
        for _ in 0..1 + self.random.below(3) {
            let is_gappy = self.nodes[author].kind == Kind::Gappy;
            let stamp = match is_gappy {
                true => now + 10,
                false => now.saturating_sub(self.random.below(2_000_000)) + 2,
            };
            let prev = match (is_gappy, self.random.below(4)) {
                (true, _) => stamp - 2,
                (_, 0) => 0,
                (_, 1) => stamp - 1,
                _ => stamp - 1 - self.random.below(stamp.min(3_000_000) - 1),
            };
            for to in self.near[author].clone() {
                let is_up = self.links[&(author, to)].is_up;
                if is_up && self.random.chance(60) && self.links[&(author, to)].transit < 500_000 {
                    let bytes = Bytes::from(vec![self.random.below(256) as u8; 100]);
                    let message = Message { author, stamp, prev, bytes };
                    self.send(author, to, Frame::Message(message));
                }
            }
        }
        if now < self.scene.end - 10 * SECOND {
            let time = now + self.random.between(2_000, 10_000);
            self.at(time, Event::Raw(author));
        }
    }
}
