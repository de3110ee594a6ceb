//! The plain cache, but with hash maps of the standard library and their default hasher (SipHash 1-3 with a random
//! key, so it may be given hostile names) in place of the ordered maps.

use std::collections::hash_map::Entry;
use std::collections::{HashMap, HashSet, VecDeque};
use std::hash::Hash;

struct Cached<M> {
    message: M,
    held_by: usize,
}

/// The digests of a peer, the newest first, each with the bytes that it is charged.
struct List<K> {
    digests: VecDeque<(K, u64)>,
    bytes: u128,
}

impl<K> List<K> {
    fn new() -> List<K> {
        List { digests: VecDeque::new(), bytes: 0 }
    }
}

pub struct Hashed<K, M> {
    deque_size: usize,
    byte_budget: u64,
    cache: HashMap<K, Cached<M>>,
    lists: HashMap<K, List<K>>,
    waiters: HashMap<K, Vec<u64>>,
    primary: HashSet<K>,
}

impl<K: Copy + Eq + Hash, M: Clone> Hashed<K, M> {
    pub fn new(deque_size: usize, byte_budget: u64) -> Hashed<K, M> {
        Hashed {
            deque_size,
            byte_budget,
            cache: HashMap::new(),
            lists: HashMap::new(),
            waiters: HashMap::new(),
            primary: HashSet::new(),
        }
    }

    pub fn peers(&mut self, keys: &[K]) {
        let set: HashSet<K> = keys.iter().copied().collect();
        let cache = &mut self.cache;
        self.lists.retain(|peer, list| {
            let stays = set.contains(peer);
            if !stays {
                list.digests.iter().for_each(|it| release(cache, it.0));
            }
            stays
        });
        self.primary = set;
    }

    /// Returns whether the digest is new on the list, and who waited for it.
    pub fn take(
        &mut self,
        peer: &K,
        digest: &K,
        charge: u64,
        message: M,
    ) -> (Option<bool>, Vec<u64>) {
        let served = self.waiters.remove(digest).unwrap_or_default();
        (self.store(peer, digest, charge, message), served)
    }

    fn store(&mut self, peer: &K, digest: &K, charge: u64, message: M) -> Option<bool> {
        if !self.primary.contains(peer) || charge > self.byte_budget {
            return None;
        }
        let list = self.lists.entry(*peer).or_insert_with(List::new);
        let place = list.digests.iter().position(|it| it.0 == *digest);
        if let Some((_, charged)) = place.and_then(|place| list.digests.remove(place)) {
            list.bytes -= u128::from(charged);
        }
        list.digests.push_front((*digest, charge));
        list.bytes += u128::from(charge);
        if place.is_none() {
            let cached =
                self.cache.entry(*digest).or_insert_with(|| Cached { message, held_by: 0 });
            cached.held_by += 1;
        }
        while (list.digests.len() > self.deque_size || list.bytes > self.byte_budget.into())
            && let Some((oldest, charged)) = list.digests.pop_back()
        {
            list.bytes -= u128::from(charged);
            release(&mut self.cache, oldest);
        }
        Some(place.is_none())
    }

    /// Lets the ticket wait for the digest, unless it is cached. Returns whether it waits.
    pub fn subscribe(&mut self, ticket: u64, digest: &K) -> bool {
        let waits = !self.cache.contains_key(digest);
        if waits {
            self.waiters.entry(*digest).or_default().push(ticket);
        }
        waits
    }

    /// Drops the waiter with this ticket. Returns whether it waited for the digest.
    pub fn cancel(&mut self, digest: &K, ticket: u64) -> bool {
        let Entry::Occupied(mut entry) = self.waiters.entry(*digest) else { return false };
        let before = entry.get().len();
        entry.get_mut().retain(|it| *it != ticket);
        let was_waiting = entry.get().len() < before;
        if entry.get().is_empty() {
            entry.remove();
        }
        was_waiting
    }

    pub fn get(&self, digest: &K) -> Option<&M> {
        self.cache.get(digest).map(|it| &it.message)
    }

    pub fn list(&self, peer: &K) -> Vec<K> {
        let list = self.lists.get(peer);
        list.map(|it| it.digests.iter().map(|it| it.0).collect()).unwrap_or_default()
    }

    pub fn cached(&self) -> usize {
        self.cache.len()
    }
}

fn release<K: Eq + Hash, M>(cache: &mut HashMap<K, Cached<M>>, digest: K) {
    let Entry::Occupied(mut entry) = cache.entry(digest) else {
        unreachable!("a listed digest is cached");
    };
    entry.get_mut().held_by -= 1;
    if entry.get().held_by == 0 {
        entry.remove();
    }
}
