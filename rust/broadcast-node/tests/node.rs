//! A node beside the model: lists of generated events, and two nodes that exchange packets.

mod common;

use broadcast_node::{
    Counters, Digest, Error, Invalid, Key, Limits, Node, Outcome, Received, Recipients,
    RestoreError, Subscribed, Ticket,
};
use common::{Model, Random, charge, encoded, key, some_keys};
use sha2::{Digest as _, Sha256};
use std::collections::BTreeMap;
use std::sync::Arc;

const MAX_LEN: usize = 300;

/// The SHA-256 of another library.
fn hash(bytes: &[u8]) -> Digest {
    Digest::from(<[u8; 32]>::from(Sha256::digest(bytes)))
}

/// The messages of the generated events, with their digests.
fn messages() -> Vec<(Digest, Vec<u8>)> {
    let lens = [0, 1, 31, 55, 56, 63, 64, 65, 120, 200, 299, MAX_LEN];
    let of = |(n, len): (usize, &usize)| {
        let bytes = vec![n as u8; *len];
        (hash(&bytes), bytes)
    };
    lens.iter().enumerate().map(of).collect()
}

fn limits(deque_size: usize, byte_budget: u64) -> Limits {
    let mut limits = Limits::default();
    limits.deque_size = deque_size;
    limits.byte_budget = byte_budget;
    limits.max_len = MAX_LEN;
    limits
}

/// A node and the model of it: that of a cache, and what each key's payloads were.
struct Pair {
    node: Node<Arc<[u8]>>,
    model: Model<Vec<u8>, Ticket>,
    counters: BTreeMap<Key, [u64; 5]>,
    others: [u64; 5],
    messages: Vec<(Digest, Vec<u8>)>,
    tickets: Vec<Ticket>,
    list: Vec<Digest>,
    random: Random,
    seen: BTreeMap<String, u64>,
}

const INVALID: usize = 4;

fn numbers(it: &Counters) -> [u64; 5] {
    [it.inserted, it.duplicate, it.ineligible, it.oversize, it.invalid]
}

impl Pair {
    fn new(seed: u64) -> Pair {
        let mut random = Random::new(seed);
        let (own, size) = (key(1), random.place(5));
        let budget = if random.chance(50) { u64::MAX } else { random.below(700) };
        Pair {
            node: Node::new(own, limits(size, budget)).unwrap(),
            model: Model::new(own, size, budget),
            counters: BTreeMap::new(),
            others: [0; 5],
            messages: messages(),
            tickets: Vec::new(),
            list: Vec::new(),
            random,
            seen: BTreeMap::new(),
        }
    }

    fn saw(&mut self, what: String) {
        *self.seen.entry(what).or_default() += 1;
    }

    fn message(&mut self) -> (Digest, Vec<u8>) {
        self.messages[self.random.place(self.messages.len())].clone()
    }

    fn peers(&mut self) {
        let keys = some_keys(&mut self.random);
        self.node.update_primary_peers(&keys).unwrap();
        self.model.peers(&keys);
        for (key, it) in std::mem::take(&mut self.counters) {
            match keys.contains(&key) {
                true => drop(self.counters.insert(key, it)),
                false => self.others.iter_mut().zip(it).for_each(|(sum, more)| *sum += more),
            }
        }
        for key in keys {
            self.counters.entry(key).or_default();
        }
        self.saw("peers".to_string());
    }

    fn broadcast(&mut self, is_named: bool) {
        let (_, message) = self.message();
        let to = match self.random.below(3) {
            0 => Recipients::All,
            1 => Recipients::Some(some_keys(&mut self.random)),
            _ => Recipients::One(key(3)),
        };
        let digest = if is_named { self.message().0 } else { hash(&message) };
        let sent = match is_named {
            true => self.node.broadcast_as(to.clone(), &digest, &message),
            false => self.node.broadcast(to.clone(), &message),
        };
        let sent = sent.unwrap();
        let (own, charge) = (self.model.own, message.len() as u64 + 4);
        let (outcome, served) = self.model.take(&own, &digest, charge, &message);
        assert_eq!((sent.digest, sent.outcome, sent.served), (digest, outcome, &served[..]));
        assert_eq!(sent.recipients, to);
        assert_eq!(**sent.payload(), encoded(&message));
        drop(sent);
        self.saw(format!("broadcast: {outcome:?}, serves {}", !served.is_empty()));
    }

    /// The encoding of one of the messages, or that encoding cut, lengthened or changed.
    fn bytes(&mut self) -> Vec<u8> {
        let mut payload = encoded(&self.message().1);
        match self.random.below(10) {
            0 => payload.truncate(self.random.place(payload.len() + 1)),
            1 => {
                let more = self.random.place(5);
                payload.extend(self.random.bytes(more));
            }
            2 => {
                let place = self.random.place(4);
                payload[place] ^= 1 << self.random.below(8);
            }
            3 => payload = encoded(&self.random.bytes(MAX_LEN + 1)),
            _ => {}
        }
        payload
    }

    fn payload(&mut self, peer: &Key) {
        let bytes = self.bytes();
        let what = self.received(peer, &bytes);
        self.saw(what);
    }

    /// Hands the bytes to both. Returns what happened.
    fn received(&mut self, peer: &Key, bytes: &[u8]) -> String {
        let received = self.node.payload(peer, bytes.into()).unwrap();
        let sent = |it: &&(Digest, Vec<u8>)| encoded(&it.1) == bytes;
        let Some((digest, message)) = self.messages.iter().find(sent).cloned() else {
            let Received::Invalid(reason) = received else { panic!("{received:?}") };
            self.counters.get_mut(peer).unwrap_or(&mut self.others)[INVALID] += 1;
            let reason = match reason {
                Invalid::EndOfBuffer => "end",
                Invalid::InvalidLength(_) => "length",
                _ => "extra",
            };
            return format!("invalid: {reason}");
        };
        let waits = !self.model.waiters.is_empty();
        let (outcome, served) = self.model.take(peer, &digest, bytes.len() as u64, &message);
        match received {
            Received::Taken(taken) => {
                assert_eq!((taken.digest, taken.outcome), (digest, outcome));
                assert_eq!((taken.served, taken.bytes()), (&served[..], &message[..]));
                assert_eq!(**taken.payload(), *bytes);
            }
            Received::Ignored(other) => assert_eq!((other, waits), (outcome, false)),
            other => panic!("{other:?}"),
        }
        self.counters.get_mut(peer).unwrap_or(&mut self.others)[outcome as usize] += 1;
        format!("payload: {outcome:?}, serves {}", !served.is_empty())
    }

    fn subscribe(&mut self) {
        let (digest, _) = self.message();
        match (self.node.subscribe(&digest).unwrap(), self.model.get(&digest)) {
            (Subscribed::Cached(bytes), Some(known)) => assert_eq!(bytes, known),
            (Subscribed::Waiting(ticket), None) => {
                self.tickets.push(ticket);
                self.model.wait(ticket, &digest);
                return self.saw("waits".to_string());
            }
            other => panic!("{other:?}"),
        }
        self.saw("answered".to_string());
    }

    fn cleanup(&mut self) {
        let count = if self.tickets.is_empty() { 0 } else { self.random.below(6) };
        let some = |at: usize| self.tickets[at];
        let places = (0..count).map(|_| self.random.place(self.tickets.len())).collect::<Vec<_>>();
        let gone: Vec<Ticket> = places.into_iter().map(some).collect();
        let removed = self.node.cleanup(&gone);
        assert_eq!(removed, self.model.cleanup(&gone));
        self.saw(format!("removes some: {}", removed > 0));
    }

    fn cancel(&mut self) {
        let (digest, _) = self.message();
        let drawn = self.tickets.len().max(1);
        let Some(ticket) = self.tickets.get(self.random.place(drawn)).copied() else { return };
        let awaited = self.model.waiters.iter().find(|it| it.0 == ticket);
        let digest = awaited.filter(|_| self.random.chance(50)).map_or(digest, |it| it.1);
        let was_waiting = self.node.cancel(&digest, ticket);
        assert_eq!(was_waiting, self.model.cancel(&digest, ticket));
        self.saw(format!("cancels: {was_waiting}"));
    }

    fn get(&mut self) {
        let (digest, _) = self.message();
        let known = self.model.get(&digest);
        assert_eq!(self.node.get(&digest), known.map(|it| &it[..]));
        assert_eq!(self.node.contains(&digest), known.is_some());
        let found = known.is_some();
        self.saw(format!("got: {found}"));
    }

    /// Goes on with a node that is made of a snapshot, whose lists are charged for the payloads that it has.
    fn restore(&mut self) {
        let snapshot = self.node.snapshot().unwrap();
        assert_eq!(snapshot.lists, self.model.lists());
        let messages = &self.model.messages;
        let len = |digest| messages.iter().find(|it| it.0 == digest).map(|it| charge(&it.1));
        for (digest, charge) in self.model.lists.iter_mut().flat_map(|it| &mut it.1) {
            *charge = len(*digest).unwrap();
        }
        let fits = |key: &Key| self.model.bytes_of(key) <= self.model.byte_budget.into();
        let what = match Node::restore(self.model.own, *self.node.limits(), snapshot.clone()) {
            Ok(node) => {
                assert!(self.model.primary.iter().all(fits));
                self.node = node;
                self.model.waiters.clear();
                self.tickets.clear();
                self.others = [0; 5];
                self.counters.values_mut().for_each(|it| *it = [0; 5]);
                "restored"
            }
            Err(RestoreError::TooManyBytes { key, found, allowed }) => {
                assert_eq!((found, allowed), (self.model.bytes_of(&key), self.model.byte_budget));
                assert!(!fits(&key));
                let numbers = |it: (Digest, usize)| (it.0, it.1 as u64);
                let list = |it: Vec<_>| it.into_iter().map(numbers).collect();
                self.model.lists =
                    snapshot.lists.into_iter().map(|it| (it.0, list(it.1))).collect();
                "not restored"
            }
            other => panic!("{other:?}"),
        };
        self.saw(what.to_string());
    }

    fn step(&mut self, at: u64) {
        let peer = key(self.random.below(8));
        match if at == 0 { 0 } else { self.random.below(100) } {
            0..5 => self.peers(),
            5..15 => self.broadcast(false),
            15..20 => self.broadcast(true),
            20..60 => self.payload(&peer),
            60..70 => self.subscribe(),
            70..80 => self.cleanup(),
            80..85 => self.cancel(),
            85 => self.restore(),
            _ => self.get(),
        }
        self.node.list_into(&peer, &mut self.list).unwrap();
        assert_eq!(self.list, self.model.list(&peer));
        assert_eq!(u128::from(self.node.bytes_of(&peer)), self.model.bytes_of(&peer));
        let counts = self.node.counts();
        let wanted = (self.model.messages.len(), self.model.awaited(), self.model.waiters.len());
        assert_eq!((counts.cached, counts.awaited, counts.waiting), wanted);
        assert_eq!((self.node.len(), self.node.awaited(), self.node.waiting()), wanted);
        assert_eq!(self.node.is_empty(), wanted.0 == 0);
    }
}

#[test]
fn generated_events_go_as_the_model_says() {
    let mut seen = BTreeMap::new();
    for seed in common::seeds() {
        let mut pair = Pair::new(seed);
        for at in 0..200 {
            pair.step(at);
        }
        for key in (0..8).map(key) {
            let counters = pair.counters.get(&key).copied().unwrap_or_default();
            assert_eq!(numbers(&pair.node.counters(&key)), counters, "seed {seed}");
        }
        assert_eq!(numbers(&pair.node.other_counters()), pair.others, "seed {seed}");
        for (what, n) in pair.seen {
            *seen.entry(what).or_insert(0) += n;
        }
    }
    println!("{seen:#?}");
    // A taking of an own message and of a payload with each outcome, that serves someone and nobody (a digest
    // on a list is cached, so a duplicate serves nobody); three reasons of invalid payloads, and the rest.
    assert_eq!(seen.len(), (4 + 3) * 2 + 3 + 11, "{seen:#?}");
    assert!(seen.values().all(|n| *n >= 5), "{seen:#?}");
}

#[test]
fn a_digest_is_the_sha_256() {
    for len in (0..300).chain([1 << 12, (1 << 16) + 7]) {
        let bytes: Vec<u8> = (0..len).map(|n| (n * 7) as u8).collect();
        assert_eq!(Digest::sha256(&bytes), hash(&bytes));
    }
}

#[test]
fn what_one_node_sends_another_takes() -> Result<(), Error> {
    let keys = [key(1), key(2)];
    let mut sender = Node::<Arc<[u8]>>::new(keys[0], Limits::default())?;
    let mut receiver = Node::<Vec<u8>>::new(keys[1], Limits::default())?;
    receiver.update_primary_peers(&keys)?;
    for len in [0, 1, 100, 1 << 20] {
        let message = vec![5; len];
        let sent = sender.broadcast(Recipients::One(keys[1]), &message)?;
        assert_eq!(sent.outcome, Outcome::Ineligible);
        assert_eq!(sent.recipients, Recipients::One(keys[1]));
        let (digest, payload) = (sent.digest, sent.payload().to_vec());
        let Subscribed::Waiting(ticket) = receiver.subscribe(&digest)? else { panic!("cached") };
        let Received::Taken(taken) = receiver.payload(&keys[0], payload)? else { panic!("not") };
        assert_eq!((taken.outcome, taken.served), (Outcome::Inserted, &[ticket][..]));
        assert_eq!(taken.bytes(), message);
    }
    Ok(())
}

#[test]
fn a_message_above_the_limit_is_neither_sent_nor_taken() -> Result<(), Error> {
    let mut node = Node::<Vec<u8>>::new(key(1), limits(5, u64::MAX))?;
    node.update_primary_peers(&[key(1)])?;
    let long = vec![5; MAX_LEN + 1];
    let sent = node.broadcast(Recipients::All, &long).map(|it| it.outcome);
    assert_eq!(sent, Err(Error::TooLong { found: MAX_LEN + 1, allowed: MAX_LEN }));
    let is_too_long = |it: Received<'_, Vec<u8>>| matches!(it, Received::Invalid(Invalid::InvalidLength(len)) if len == MAX_LEN + 1);
    assert!(is_too_long(node.payload(&key(1), encoded(&long))?));
    assert!(node.is_empty());
    Ok(())
}

#[test]
fn a_message_that_is_neither_kept_nor_awaited_is_ignored() -> Result<(), Error> {
    let mut node = Node::<Vec<u8>>::new(key(1), limits(5, 50))?;
    node.update_primary_peers(&[key(1)])?;
    let (short, long) = (encoded(b"short"), encoded(&[5; 100]));
    let is_ignored =
        |it: &Received<'_, Vec<u8>>| matches!(it, Received::Ignored(Outcome::Ineligible));
    assert!(is_ignored(&node.payload(&key(2), short.clone())?));
    assert!(matches!(node.payload(&key(1), long)?, Received::Ignored(Outcome::Oversize)));
    let _ = node.subscribe(&hash(b"short"))?;
    let Received::Taken(taken) = node.payload(&key(2), short)? else { panic!("somebody waits") };
    assert_eq!((taken.outcome, taken.served.len()), (Outcome::Ineligible, 1));
    drop(taken);
    assert_eq!((node.other_counters().ineligible, node.counters(&key(1)).oversize), (2, 1));
    Ok(())
}

#[test]
fn a_node_moves_to_another_thread() -> Result<(), Error> {
    let mut node = Node::<Arc<[u8]>>::new(key(1), Limits::default())?;
    node.update_primary_peers(&[key(1)])?;
    let digest = node.broadcast(Recipients::All, b"there")?.digest;
    let moved = std::thread::spawn(move || (node.get(&digest) == Some(b"there"), node));
    let (is_there, node) = moved.join().unwrap();
    assert!(is_there);
    assert_eq!(node.len(), 1);
    Ok(())
}

/// The bytes of a payload are neither copied in nor out.
#[cfg(feature = "bytes")]
#[test]
fn a_payload_is_shared() -> Result<(), Error> {
    use bytes::Bytes;
    let mut node = broadcast_node::BytesNode::new(key(1), Limits::default())?;
    node.update_primary_peers(&[key(1), key(2)])?;
    let payload = Bytes::from(encoded(b"shared"));
    let _ = node.payload(&key(2), payload.clone())?;
    let digest = hash(b"shared");
    assert_eq!(node.get_payload(&digest).map(|it| it.as_ptr()), Some(payload.as_ptr()));
    assert_eq!(node.get(&digest).map(<[u8]>::as_ptr), Some(payload[4..].as_ptr()));
    let sent = node.broadcast(Recipients::All, b"own")?;
    let (digest, payload) = (sent.digest, sent.payload().clone());
    drop(sent);
    assert_eq!(node.get_payload(&digest).map(|it| it.as_ptr()), Some(payload.as_ptr()));
    Ok(())
}
