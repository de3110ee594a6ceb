//! What the calls of the verified library are to answer, by their definitions: sums and searches over all that ever came.

use broadcast_relay::gossip::{CHARGE, Frame, Kept, Message, Report, top};
use std::collections::{BTreeMap, BTreeSet, HashMap};

/// What a peer reported, and what it was sent and brought since then.
#[derive(Default)]
struct Sent {
    told: Option<Report>,
    /// What is not in the report: sent, with the number of each, and brought by the peer itself.
    flying: BTreeMap<u64, u64>,
    brought: BTreeSet<u64>,
    count: u64,
}

/// The set of what came to one relay, by author, and what its peers told and were sent.
#[derive(Default)]
pub struct Model {
    budget: u64,
    /// Of each author: of each stamp the one before it, and the charge.
    came: HashMap<usize, BTreeMap<u64, (u64, u64)>>,
    sent: HashMap<(usize, usize), Sent>,
    /// How many answers were compared.
    pub compared: u64,
}

impl Model {
    pub fn new(budget: u64) -> Model {
        Model { budget, ..Model::default() }
    }

    pub fn note(&mut self, author: usize, prev: u64, stamp: u64, len: usize) {
        let came = self.came.entry(author).or_default();
        came.entry(stamp).or_insert((prev, len as u64 + CHARGE));
    }

    /// The relay starts again, without what it had of one author, or of all.
    pub fn forget(&mut self, author: Option<usize>) {
        match author {
            Some(it) => drop(self.came.remove(&it)),
            None => self.came.clear(),
        }
    }

    pub fn connect(&mut self, peer: usize) {
        self.sent.retain(|it, _| it.0 != peer);
    }

    /// The newest that fit the budget together with all later ones, in order, and the floor: the greatest stamp that does not.
    fn newest(&self, author: usize) -> (Vec<u64>, u64) {
        let (mut listed, mut floor, mut sum) = (Vec::new(), 0, 0);
        for (stamp, (_, charge)) in self.came.get(&author).into_iter().flatten().rev() {
            sum += charge;
            if sum > self.budget {
                floor = *stamp;
                break;
            }
            listed.push(*stamp);
        }
        listed.reverse();
        (listed, floor)
    }

    /// Compares floor, list and bytes, which follow from the set of what came.
    pub fn judge_log(&mut self, author: usize, kept: &Kept) {
        let (listed, floor) = self.newest(author);
        let came = self.came.entry(author).or_default();
        assert!(kept.iter().map(|it| it.stamp).eq(listed.iter().copied()), "the list of {author}");
        assert_eq!(kept.floor(), floor, "the floor of {author}");
        assert_eq!(kept.bytes(), listed.iter().map(|it| came[it].1).sum::<u64>());
        assert!(came.keys().all(|it| kept.has(*it)) && !kept.has(top_of(kept) + 1));
        self.compared += 1;
    }

    /// A report shows of the listed messages those up to its top, and between them only what they cover.
    fn judge_report(&mut self, author: usize, report: &Report) {
        let (listed, floor) = self.newest(author);
        let (shown, came) = (&report.coverage, &self.came.entry(author).or_default());
        assert_eq!(report.since, floor);
        let mut end = floor;
        for stamp in listed.into_iter().filter(|it| *it <= top(shown)) {
            let prev = came[&stamp].0;
            assert!(shown.has(stamp) && (prev <= end || !shown.has(prev)), "{author}/{stamp}");
            end = stamp;
        }
        assert_eq!(top(shown), end);
        self.compared += 1;
    }

    /// The relay sends a frame to a peer.
    pub fn judge_frame(&mut self, to: usize, frame: &Frame, kept: &Kept) {
        let it = match frame {
            Frame::Report(author, report) => return self.judge_report(*author, report),
            Frame::Message(it) => it,
        };
        let sent = self.sent.get_mut(&(to, it.author)).expect("nothing was reported");
        let told = sent.told.as_ref().expect("nothing was reported");
        // Above the top of a report that is cut off nobody knows what is due.
        if it.stamp > top(&told.coverage) && told.coverage.spans().len() == 63 {
            return;
        }
        let is_due = |it: &u64| {
            !told.coverage.has(*it) && !sent.flying.contains_key(it) && !sent.brought.contains(it)
        };
        assert_eq!(kept.iter().map(|it| it.stamp).find(is_due), Some(it.stamp), "to {to}");
        sent.count += 1;
        sent.flying.insert(it.stamp, sent.count);
        self.compared += 1;
    }

    /// A peer's report comes. What is charged that it does not show is the lag.
    pub fn hear(&mut self, from: usize, author: usize, report: &Report, kept: &Kept) {
        let lacks = |it: &Message| !report.coverage.has(it.stamp);
        let lag = kept.iter().filter(lacks).map(|it| it.size()).sum::<u64>();
        assert_eq!(kept.lag(&report.coverage), lag);
        let sent = self.sent.entry((from, author)).or_default();
        sent.flying.retain(|it, number| !report.coverage.has(*it) && *number > report.done);
        sent.brought.retain(|it| !report.coverage.has(*it));
        sent.told = Some(report.clone());
        self.compared += 1;
    }

    /// A peer brings a message that this relay has then.
    pub fn bring(&mut self, from: usize, author: usize, stamp: u64) {
        let sent = self.sent.entry((from, author)).or_default();
        if sent.told.is_some() && !sent.flying.contains_key(&stamp) {
            sent.brought.insert(stamp);
        }
    }
}

fn top_of(kept: &Kept) -> u64 {
    kept.iter().last().map_or(kept.floor(), |it| it.stamp)
}
