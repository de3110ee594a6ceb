//! The connections of a relay, and what is to be sent over each.

use super::Time;
use std::collections::VecDeque;

#[derive(Debug, Default)]
pub struct Link {
    pub is_connected: bool,
    /// It has reported all authors that it lists.
    pub has_reported: bool,
    pub round_trip: Time,
    /// The authors of whom a report is due.
    pub reports: VecDeque<usize>,
    /// The authors of whom messages may be sent, in turn.
    pub turns: VecDeque<usize>,
}

#[derive(Debug, Default)]
pub struct Links {
    pub each: Vec<Link>,
    /// How many messages left a list of this relay while a peer lacked them.
    pub left_behind: Vec<u64>,
    /// The peers to whom something may be sent since they were taken last.
    pub woken: Vec<usize>,
}

impl Links {
    pub fn connect(&mut self, peer: usize, round_trip: Time) {
        self.each[peer] = Link { is_connected: true, round_trip, ..Link::default() };
    }

    /// The peers that are connected, but one.
    pub fn others(&self, but: Option<usize>) -> impl Iterator<Item = usize> {
        (0..self.each.len()).filter(move |&it| self.each[it].is_connected && Some(it) != but)
    }

    pub fn push_report(&mut self, peer: usize, author: usize) {
        self.wake(peer);
        self.each[peer].reports.push_back(author);
    }

    pub fn push_turn(&mut self, peer: usize, author: usize) {
        self.wake(peer);
        self.each[peer].turns.push_back(author);
    }

    fn wake(&mut self, peer: usize) {
        let link = &self.each[peer];
        if link.reports.is_empty() && link.turns.is_empty() {
            self.woken.push(peer);
        }
    }
}
