//! The calls that a cache and a node make of the library are of the form that `common/form.rs` says.

mod common;
#[path = "common/form.rs"]
mod form;

use broadcast_node::{Cache, Digest, Key, Limits, Node, Recipients, Subscribed, Ticket, recorder};
use common::{Random, charge, encoded, key, some_keys};
use form::{Seen, look_at};

const MESSAGES: u64 = 12;

fn message(n: u64) -> Vec<u8> {
    vec![n as u8; (n * 7 % 40) as usize + 1]
}

fn digest(n: u64) -> Digest {
    Digest::sha256(&message(n))
}

fn length_of(name: &Digest) -> usize {
    let found = (0..MESSAGES).find(|it| digest(*it) == *name);
    charge(&message(found.expect("a message of the run"))) as usize
}

/// A cache and a node to which the same happens, and the tickets that each drew.
struct Pair {
    cache: Cache<u64>,
    node: Node<Vec<u8>>,
    tickets: [Vec<Ticket>; 2],
    limits: Limits,
}

impl Pair {
    fn new(random: &mut Random) -> Pair {
        let (deque_size, byte_budget) = (random.place(5), 10 + random.below(150));
        let limits = Limits::default().deque_size(deque_size).byte_budget(byte_budget);
        let cache = Cache::new(key(1), deque_size, byte_budget).unwrap();
        let node = Node::new(key(1), limits).unwrap();
        Pair { cache, node, tickets: [const { Vec::new() }; 2], limits }
    }

    /// Takes the message twice. Sometimes the result is forgotten, so that evicted messages stay in memory.
    fn take(&mut self, peer: &Key, n: u64, is_forgotten: bool) {
        let len = charge(&message(n)) as usize;
        let (taken, received) = (
            self.cache.take(peer, &digest(n), len, n).unwrap(),
            self.node.payload(peer, encoded(&message(n))).unwrap(),
        );
        if is_forgotten {
            std::mem::forget((taken, received));
        }
    }

    fn subscribe(&mut self, n: u64) {
        if let Subscribed::Waiting(ticket) = self.cache.subscribe(&digest(n)).unwrap() {
            self.tickets[0].push(ticket);
        }
        if let Subscribed::Waiting(ticket) = self.node.subscribe(&digest(n)).unwrap() {
            self.tickets[1].push(ticket);
        }
    }

    fn cleanup(&mut self, random: &mut Random) {
        let mut some = |tickets: &[Ticket]| -> Vec<Ticket> {
            tickets.iter().copied().filter(|_| random.chance(20)).collect()
        };
        self.cache.cleanup(&some(&self.tickets[0]));
        self.node.cleanup(&some(&self.tickets[1]));
    }

    fn cancel(&mut self, n: u64) {
        if let [Some(one), Some(other)] = self.tickets.each_ref().map(|it| it.last()) {
            self.cache.cancel(&digest(n), *one);
            self.node.cancel(&digest(n), *other);
        }
    }

    /// Goes on with a cache and a node that are made of snapshots.
    fn restore(&mut self) {
        let (own, limits) = (key(1), self.limits);
        let snapshot = self.cache.snapshot().unwrap();
        self.cache = Cache::restore(own, limits.deque_size, limits.byte_budget, snapshot).unwrap();
        let snapshot = self.node.snapshot().unwrap();
        self.node = Node::restore(own, limits, snapshot).unwrap();
        self.tickets = [const { Vec::new() }; 2];
    }

    fn step(&mut self, random: &mut Random) {
        let (n, peer) = (random.below(MESSAGES), key(random.below(8)));
        match random.below(100) {
            0..5 => {
                let keys = some_keys(random);
                drop(self.cache.update_primary_peers(&keys).unwrap());
                drop(self.node.update_primary_peers(&keys).unwrap());
            }
            5..45 => self.take(&peer, n, random.chance(10)),
            45..55 => drop(self.node.broadcast(Recipients::All, &message(n)).unwrap()),
            55..90 => self.subscribe(n),
            90..94 => self.cleanup(random),
            94..98 => self.cancel(n),
            _ => self.restore(),
        }
    }
}

#[test]
fn the_calls_of_a_cache_and_a_node_have_the_form() {
    let mut total = Seen::default();
    for seed in common::seeds() {
        let calls = recorder::calls(|| {
            let mut random = Random::new(seed);
            let mut pair = Pair::new(&mut random);
            (0..200).for_each(|_| pair.step(&mut random));
        });
        total.add(&look_at(&calls, length_of));
    }
    println!("{total:?}");
    assert!(total.least() >= 300, "{total:?}");
}
