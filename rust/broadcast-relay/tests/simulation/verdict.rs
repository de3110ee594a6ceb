//! What is judged at the end of a run: what happened, and never how long it took on this machine.

use crate::world::{FULL, World};
use broadcast_relay::gossip::SECOND;
use std::collections::HashMap;

#[derive(Default)]
pub struct Outcome {
    pub wrong: Vec<String>,
    /// The run in words.
    pub what: String,
    pub published: u64,
    pub deliveries: u64,
    /// The messages of honest authors that honest relays sent each other, however often.
    pub copies: u64,
    pub report_bytes: u64,
    pub lost: u64,
    /// How long deliveries took, in simulated milliseconds, of slow authors and of fast ones.
    pub slow_ages: Vec<u32>,
    pub full_ages: Vec<u32>,
    /// When what slow authors said came, by relay, author and stamp; and how many answers of the library were compared.
    pub came: HashMap<(usize, usize, u64), u64>,
    pub compared: u64,
}

impl Outcome {
    pub fn note_age(&mut self, is_full: bool, age: u64) {
        let ages = if is_full { &mut self.full_ages } else { &mut self.slow_ages };
        ages.push((age / 1_000) as u32);
    }
}

impl World {
    /// Says what is wrong at the end.
    pub fn judge(&mut self) {
        let (mut wrong, lost) = self.faults();
        wrong.sort();
        self.outcome.wrong.extend(wrong);
        self.outcome.lost = lost;
        for (number, node) in self.nodes.iter().enumerate().filter(|it| it.1.is_honest()) {
            self.outcome.compared += node.model.as_ref().map_or(0, |it| it.compared);
            let is_slow = |author: usize| self.nodes[author].rate != FULL;
            let slow = node.seen.iter().filter(|it| is_slow(it.0.0));
            self.outcome
                .came
                .extend(slow.map(|((author, stamp), at)| ((number, *author, *stamp), *at)));
        }
    }

    /// How many hops honest relays are apart, over honest ones.
    pub fn hops(&self, from: usize) -> HashMap<usize, u64> {
        let mut hops = HashMap::from([(from, 0)]);
        let mut next = std::collections::VecDeque::from([from]);
        while let Some(node) = next.pop_front() {
            for &peer in self.near[node].iter().filter(|it| self.nodes[**it].is_honest()) {
                if !hops.contains_key(&peer) {
                    hops.insert(peer, hops[&node] + 1);
                    next.push_back(peer);
                }
            }
        }
        hops
    }

    /// What is wrong now, and how many deliveries are lacking.
    pub fn faults(&self) -> (Vec<String>, u64) {
        let honest: Vec<usize> =
            (0..self.nodes.len()).filter(|&it| self.nodes[it].is_honest()).collect();
        let (mut wrong, mut lost) = (Vec::new(), 0);
        for &node in &honest {
            match &self.nodes[node].machine {
                None => wrong.push(format!("{node} is down")),
                Some(it) if !it.may_publish() => wrong.push(format!("{node} still waits")),
                Some(_) => {}
            }
        }
        if wrong.is_empty() {
            self.judge_lists(&honest, &mut wrong);
            lost = self.judge_messages(&honest, &mut wrong);
        }
        (wrong, lost)
    }

    /// What is on a list has come to each neighbour.
    fn judge_lists(&self, honest: &[usize], wrong: &mut Vec<String>) {
        for &node in honest {
            let machine = self.nodes[node].machine.as_ref().unwrap();
            let peers = honest.iter().filter(|it| self.near[node].contains(it));
            for (&author, &peer) in
                honest.iter().flat_map(|author| peers.clone().map(move |peer| (author, peer)))
            {
                let seen = &self.nodes[peer].seen;
                let lacks = |stamp: u64| !seen.contains_key(&(author, stamp));
                let listed = machine.log(author).kept.iter();
                wrong.extend(listed.filter(|it| lacks(it.stamp)).map(|it| {
                    format!("{author}/{} is on the list of {node}, not at {peer}", it.stamp)
                }));
            }
        }
    }

    /// Whether an operator is told that messages of an author are lost at a relay.
    fn is_told(&self, author: usize, lacking: usize) -> bool {
        let machine = |it: usize| self.nodes[it].machine.as_ref().unwrap();
        let log = machine(lacking).log(author);
        let mut near = self.near[lacking].iter().filter(|it| self.nodes[**it].is_honest());
        log.lost > 0 || near.any(|it| machine(*it).left_behind(lacking) > 0)
    }

    /// All messages of slow honest authors are everywhere, and those of fast ones if nothing broke.
    fn judge_messages(&self, honest: &[usize], wrong: &mut Vec<String>) -> u64 {
        let mut lost = 0;
        for (&(author, stamp), &born) in &self.born {
            let node = &self.nodes[author];
            // What was published just before a crash may be lost with it.
            let near_crash = |at: &u64| born <= *at && born + 3 * SECOND > *at;
            if !node.is_honest() || node.crashed.iter().any(near_crash) {
                continue;
            }
            let lacks = |it: &&usize| !self.nodes[**it].seen.contains_key(&(author, stamp));
            for &lacking in honest.iter().filter(lacks) {
                lost += 1;
                if self.scene.is_strict || node.rate != FULL {
                    wrong.push(format!("{author}/{stamp} is lost at {lacking}"));
                } else if born > self.nodes[lacking].forgot && !self.is_told(author, lacking) {
                    wrong
                        .push(format!("{author}/{stamp} is lost at {lacking}, and nobody says so"));
                }
            }
        }
        lost
    }
}
