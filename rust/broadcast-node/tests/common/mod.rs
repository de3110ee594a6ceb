//! A model of a cache and of a node, written apart from them: flat lists, searched from end to end.

#![allow(dead_code, reason = "each test uses a part of it")]

use broadcast_node::{Digest, Key, Outcome};
use std::time::{Duration, Instant, SystemTime, UNIX_EPOCH};

/// The seeds of generated calls: 300, and more for as many seconds as `BROADCAST_FUZZ_SECONDS` says, from another
/// place each day.
pub fn seeds() -> impl Iterator<Item = u64> {
    let seconds = std::env::var("BROADCAST_FUZZ_SECONDS").ok().and_then(|it| it.parse().ok());
    let end = Instant::now() + Duration::from_secs(seconds.unwrap_or(0));
    let since = SystemTime::now().duration_since(UNIX_EPOCH).unwrap_or_default();
    let day = since.as_secs() / 86_400;
    (0..300).chain((day << 32..).take_while(move |_| Instant::now() < end))
}

/// A small generator of numbers (xorshift).
pub struct Random(u64);

impl Random {
    pub fn new(seed: u64) -> Random {
        Random(seed.wrapping_mul(0x9e37_79b9_7f4a_7c15) | 1)
    }

    pub fn next(&mut self) -> u64 {
        self.0 ^= self.0 << 13;
        self.0 ^= self.0 >> 7;
        self.0 ^= self.0 << 17;
        self.0 >> 11
    }

    pub fn below(&mut self, n: u64) -> u64 {
        self.next() % n
    }

    pub fn place(&mut self, n: usize) -> usize {
        self.below(n as u64) as usize
    }

    pub fn chance(&mut self, percent: u64) -> bool {
        self.below(100) < percent
    }

    pub fn bytes(&mut self, len: usize) -> Vec<u8> {
        (0..len).map(|_| self.next() as u8).collect()
    }
}

/// Keys of 1, 32, 33 and 64 bytes, some of which begin alike.
pub fn key(n: u64) -> Key {
    let len = [1, 32, 33, 64][(n / 2 % 4) as usize];
    let mut bytes = vec![0; len];
    bytes[0] = (n % 2) as u8;
    bytes[len - 1] |= (n / 8) as u8;
    Key::try_from(&bytes[..]).unwrap()
}

/// Digests that differ in one byte or in two.
pub fn digest(n: u64) -> Digest {
    let mut digest = [9; 32];
    digest[(n % 32) as usize] = (n / 32) as u8;
    digest[(n / 3 % 32) as usize] ^= 0x80 | (n % 64) as u8;
    digest.into()
}

/// A set of some of the first eight keys, in any order, and with repeats.
pub fn some_keys(random: &mut Random) -> Vec<Key> {
    let mut keys: Vec<Key> = (0..8).map(key).filter(|_| random.chance(75)).collect();
    if !keys.is_empty() {
        let turn = random.place(keys.len());
        keys.rotate_left(turn);
        let again = keys.len().min(2);
        keys.extend_from_within(..again);
    }
    keys
}

/// What a list is charged for a message: the bytes of its encoding.
pub fn charge(bytes: &[u8]) -> u64 {
    bytes.len() as u64 + 4
}

/// The encoding of a message: its length in four bytes, and then its bytes.
pub fn encoded(bytes: &[u8]) -> Vec<u8> {
    let mut out = (bytes.len() as u32).to_be_bytes().to_vec();
    out.extend_from_slice(bytes);
    out
}

/// A list: digests with their charges, the newest first.
pub type List = Vec<(Digest, u64)>;

/// `W` are those who wait.
pub struct Model<M, W> {
    pub own: Key,
    pub deque_size: usize,
    pub byte_budget: u64,
    pub primary: Vec<Key>,
    pub lists: Vec<(Key, List)>,
    pub messages: Vec<(Digest, M)>,
    pub waiters: Vec<(W, Digest)>,
}

impl<M: Clone, W: Copy + PartialEq> Model<M, W> {
    pub fn new(own: Key, deque_size: usize, byte_budget: u64) -> Model<M, W> {
        Model {
            own,
            deque_size,
            byte_budget,
            primary: Vec::new(),
            lists: Vec::new(),
            messages: Vec::new(),
            waiters: Vec::new(),
        }
    }

    fn forget_unlisted(&mut self) {
        let lists = &self.lists;
        let listed = |digest| lists.iter().any(|(_, list)| list.iter().any(|it| it.0 == digest));
        self.messages.retain(|(digest, _)| listed(*digest));
    }

    pub fn peers(&mut self, keys: &[Key]) {
        self.primary = keys.to_vec();
        self.lists.retain(|(key, _)| keys.contains(key));
        self.forget_unlisted();
    }

    pub fn take(
        &mut self,
        peer: &Key,
        digest: &Digest,
        charge: u64,
        message: &M,
    ) -> (Outcome, Vec<W>) {
        let mut served = Vec::new();
        self.waiters.retain(|(ticket, awaited)| {
            if awaited == digest {
                served.push(*ticket);
            }
            awaited != digest
        });
        (self.keep(peer, digest, charge, message), served)
    }

    fn keep(&mut self, peer: &Key, digest: &Digest, charge: u64, message: &M) -> Outcome {
        if !self.primary.contains(peer) {
            return Outcome::Ineligible;
        }
        if charge > self.byte_budget {
            return Outcome::Oversize;
        }
        let mut list = self.charged(peer);
        let had = list.iter().any(|it| it.0 == *digest);
        list.retain(|it| it.0 != *digest);
        list.insert(0, (*digest, charge));
        while list.len() > self.deque_size || bytes_of(&list) > self.byte_budget.into() {
            list.pop();
        }
        self.lists.retain(|(key, _)| key != peer);
        self.lists.push((*peer, list));
        if self.get(digest).is_none() {
            self.messages.push((*digest, message.clone()));
        }
        self.forget_unlisted();
        if had { Outcome::Duplicate } else { Outcome::Inserted }
    }

    /// The list of a peer: the digests, newest first, and their charges.
    pub fn charged(&self, peer: &Key) -> List {
        let found = self.lists.iter().find(|(key, _)| key == peer);
        found.map(|(_, list)| list.clone()).unwrap_or_default()
    }

    /// The list of each primary key, in order.
    pub fn lists(&self) -> Vec<(Key, Vec<(Digest, usize)>)> {
        let mut keys = self.primary.clone();
        keys.sort();
        keys.dedup();
        let charged = |key| self.charged(key).into_iter().map(|it| (it.0, it.1 as usize)).collect();
        keys.iter().map(|key| (*key, charged(key))).collect()
    }

    pub fn list(&self, peer: &Key) -> Vec<Digest> {
        self.charged(peer).into_iter().map(|it| it.0).collect()
    }

    pub fn bytes_of(&self, peer: &Key) -> u128 {
        bytes_of(&self.charged(peer))
    }

    pub fn get(&self, digest: &Digest) -> Option<&M> {
        let found = self.messages.iter().find(|(it, _)| it == digest);
        found.map(|(_, message)| message)
    }

    pub fn wait(&mut self, ticket: W, digest: &Digest) {
        self.waiters.push((ticket, *digest));
    }

    pub fn cleanup(&mut self, gone: &[W]) -> u64 {
        let before = self.waiters.len();
        self.waiters.retain(|(ticket, _)| !gone.contains(ticket));
        (before - self.waiters.len()) as u64
    }

    pub fn cancel(&mut self, digest: &Digest, ticket: W) -> bool {
        let place = self.waiters.iter().position(|it| *it == (ticket, *digest));
        place.map(|it| self.waiters.remove(it)).is_some()
    }

    pub fn awaited(&self) -> usize {
        let mut digests: Vec<_> = self.waiters.iter().map(|(_, digest)| digest).collect();
        digests.sort();
        digests.dedup();
        digests.len()
    }
}

fn bytes_of(list: &List) -> u128 {
    list.iter().map(|it| u128::from(it.1)).sum()
}
