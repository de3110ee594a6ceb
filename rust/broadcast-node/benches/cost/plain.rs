//! The cache of `bench/plain`, over keys and digests of one type and messages of any: ordered maps, a deque for
//! each peer that is searched from end to end, and messages that are cloned. `bench/cache` times it too.

use std::collections::btree_map::Entry;
use std::collections::{BTreeMap, VecDeque};

struct Cached<M> {
    message: M,
    held_by: usize,
}

/// The digests of a peer, the newest first, each with the bytes that it is charged.
struct List<K> {
    digests: VecDeque<(K, u64)>,
    bytes: u128,
}

impl<K> List<K> {
    fn new() -> List<K> {
        List { digests: VecDeque::new(), bytes: 0 }
    }
}

pub struct Plain<K, M> {
    deque_size: usize,
    byte_budget: u64,
    cache: BTreeMap<K, Cached<M>>,
    lists: BTreeMap<K, List<K>>,
    waiters: BTreeMap<K, Vec<u64>>,
    primary: Vec<K>,
}

impl<K: Copy + Ord, M: Clone> Plain<K, M> {
    pub fn new(deque_size: usize, byte_budget: u64) -> Plain<K, M> {
        Plain {
            deque_size,
            byte_budget,
            cache: BTreeMap::new(),
            lists: BTreeMap::new(),
            waiters: BTreeMap::new(),
            primary: Vec::new(),
        }
    }

    pub fn peers(&mut self, keys: &[K]) {
        let mut set = keys.to_vec();
        set.sort_unstable();
        set.dedup();
        let cache = &mut self.cache;
        self.lists.retain(|peer, list| {
            let stays = set.binary_search(peer).is_ok();
            if !stays {
                list.digests.iter().for_each(|it| release(cache, it.0));
            }
            stays
        });
        self.primary = set;
    }

    /// Returns whether the digest is new on the list, and who waited for it.
    pub fn take(
        &mut self,
        peer: &K,
        digest: &K,
        charge: u64,
        message: M,
    ) -> (Option<bool>, Vec<u64>) {
        let served = self.waiters.remove(digest).unwrap_or_default();
        (self.store(peer, digest, charge, message), served)
    }

    fn store(&mut self, peer: &K, digest: &K, charge: u64, message: M) -> Option<bool> {
        if self.primary.binary_search(peer).is_err() || charge > self.byte_budget {
            return None;
        }
        let list = self.lists.entry(*peer).or_insert_with(List::new);
        let place = list.digests.iter().position(|it| it.0 == *digest);
        if let Some((_, charged)) = place.and_then(|place| list.digests.remove(place)) {
            list.bytes -= u128::from(charged);
        }
        list.digests.push_front((*digest, charge));
        list.bytes += u128::from(charge);
        if place.is_none() {
            let cached =
                self.cache.entry(*digest).or_insert_with(|| Cached { message, held_by: 0 });
            cached.held_by += 1;
        }
        while (list.digests.len() > self.deque_size || list.bytes > self.byte_budget.into())
            && let Some((oldest, charged)) = list.digests.pop_back()
        {
            list.bytes -= u128::from(charged);
            release(&mut self.cache, oldest);
        }
        Some(place.is_none())
    }

    /// Lets the ticket wait for the digest, unless it is cached. Returns whether it waits.
    pub fn subscribe(&mut self, ticket: u64, digest: &K) -> bool {
        let waits = !self.cache.contains_key(digest);
        if waits {
            self.waiters.entry(*digest).or_default().push(ticket);
        }
        waits
    }

    /// Drops the waiter with this ticket. Returns whether it waited for the digest.
    pub fn cancel(&mut self, digest: &K, ticket: u64) -> bool {
        let Entry::Occupied(mut entry) = self.waiters.entry(*digest) else { return false };
        let before = entry.get().len();
        entry.get_mut().retain(|it| *it != ticket);
        let was_waiting = entry.get().len() < before;
        if entry.get().is_empty() {
            entry.remove();
        }
        was_waiting
    }

    pub fn get(&self, digest: &K) -> Option<&M> {
        self.cache.get(digest).map(|it| &it.message)
    }

    pub fn list(&self, peer: &K) -> Vec<K> {
        let list = self.lists.get(peer);
        list.map(|it| it.digests.iter().map(|it| it.0).collect()).unwrap_or_default()
    }

    pub fn cached(&self) -> usize {
        self.cache.len()
    }
}

fn release<K: Ord, M>(cache: &mut BTreeMap<K, Cached<M>>, digest: K) {
    let Entry::Occupied(mut entry) = cache.entry(digest) else {
        unreachable!("a listed digest is cached");
    };
    entry.get_mut().held_by -= 1;
    if entry.get().held_by == 0 {
        entry.remove();
    }
}
