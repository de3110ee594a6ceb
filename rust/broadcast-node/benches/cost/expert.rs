//! A cache as an expert in speed would write it: hash maps by the first bytes, lists that are linked through one
//! vector, and for each message the places that it has on lists. `bench/cache` times it too.

use std::collections::HashMap;
use std::collections::hash_map::Entry as Slot;
use std::hash::{BuildHasherDefault, Hash, Hasher};

/// Takes the first eight bytes of what it is given last, which are as good as random.
#[derive(Default)]
pub struct ByPrefix(u64);

impl Hasher for ByPrefix {
    fn finish(&self) -> u64 {
        self.0
    }

    fn write(&mut self, bytes: &[u8]) {
        if let Some(front) = bytes.first_chunk() {
            self.0 = u64::from_le_bytes(*front);
        }
    }

    fn write_usize(&mut self, _: usize) {}
}

type Map<K, V> = HashMap<K, V, BuildHasherDefault<ByPrefix>>;

const NONE: u32 = u32::MAX;

struct Item<K, M> {
    digest: K,
    message: Option<M>,
    /// A list that it is on, and at which entry.
    first: (u32, u32),
    /// The other lists and entries.
    others: Vec<(u32, u32)>,
}

impl<K, M> Item<K, M> {
    /// The entry at which it is on this list.
    fn entry_of(&self, list: u32) -> Option<u32> {
        if self.first.0 == list {
            return Some(self.first.1);
        }
        self.others.iter().find(|it| it.0 == list).map(|it| it.1)
    }
}

#[derive(Clone, Copy)]
struct Entry {
    item: u32,
    newer: u32,
    older: u32,
    charge: u64,
}

#[derive(Clone, Copy)]
struct List {
    newest: u32,
    oldest: u32,
    len: usize,
    bytes: u64,
}

pub struct Expert<K, M> {
    deque_size: usize,
    byte_budget: u64,
    peers: Map<K, u32>,
    lists: Vec<List>,
    index: Map<K, u32>,
    items: Vec<Item<K, M>>,
    free_items: Vec<u32>,
    entries: Vec<Entry>,
    free_entries: Vec<u32>,
    waiters: Map<K, Vec<u64>>,
}

impl<K: Copy + Eq + Hash, M> Expert<K, M> {
    /// The peers are these, for ever.
    pub fn new(deque_size: usize, byte_budget: u64, peers: &[K]) -> Expert<K, M> {
        let list = List { newest: NONE, oldest: NONE, len: 0, bytes: 0 };
        Expert {
            deque_size,
            byte_budget,
            peers: peers.iter().copied().zip(0..).collect(),
            lists: vec![list; peers.len()],
            index: Map::default(),
            items: Vec::new(),
            free_items: Vec::new(),
            entries: Vec::new(),
            free_entries: Vec::new(),
            waiters: Map::default(),
        }
    }

    /// Returns whether the digest is new on the list, and who waited for it.
    pub fn take(
        &mut self,
        peer: &K,
        digest: &K,
        charge: u64,
        message: M,
    ) -> (Option<bool>, Vec<u64>) {
        let served = match self.waiters.is_empty() {
            true => Vec::new(),
            false => self.waiters.remove(digest).unwrap_or_default(),
        };
        (self.store(peer, digest, charge, message), served)
    }

    fn store(&mut self, peer: &K, digest: &K, charge: u64, message: M) -> Option<bool> {
        let peer = *self.peers.get(peer)?;
        if charge > self.byte_budget {
            return None;
        }
        let item = self.index.get(digest).copied();
        let listed = item.and_then(|it| self.items[it as usize].entry_of(peer));
        match (item, listed) {
            (Some(item), Some(entry)) => {
                self.unlink(peer, entry);
                self.link(peer, entry, item, charge);
            }
            (Some(item), None) => {
                let entry = self.free_entry();
                self.items[item as usize].others.push((peer, entry));
                self.link(peer, entry, item, charge);
            }
            (None, _) => {
                let entry = self.free_entry();
                let item = self.add(*digest, (peer, entry), message);
                self.link(peer, entry, item, charge);
            }
        }
        while self.exceeds(peer) {
            self.evict(peer);
        }
        Some(listed.is_none())
    }

    /// Returns an entry that is on no list.
    fn free_entry(&mut self) -> u32 {
        self.free_entries.pop().unwrap_or_else(|| {
            self.entries.push(Entry { item: NONE, newer: NONE, older: NONE, charge: 0 });
            self.entries.len() as u32 - 1
        })
    }

    fn add(&mut self, digest: K, first: (u32, u32), message: M) -> u32 {
        let item = Item { digest, message: Some(message), first, others: Vec::new() };
        let at = match self.free_items.pop() {
            Some(at) => {
                self.items[at as usize] = item;
                at
            }
            None => {
                self.items.push(item);
                self.items.len() as u32 - 1
            }
        };
        self.index.insert(digest, at);
        at
    }

    fn exceeds(&self, peer: u32) -> bool {
        let list = &self.lists[peer as usize];
        list.len > self.deque_size || list.bytes > self.byte_budget
    }

    fn link(&mut self, peer: u32, entry: u32, item: u32, charge: u64) {
        let list = &mut self.lists[peer as usize];
        self.entries[entry as usize] = Entry { item, newer: NONE, older: list.newest, charge };
        match list.newest {
            NONE => list.oldest = entry,
            newest => self.entries[newest as usize].newer = entry,
        }
        list.newest = entry;
        list.len += 1;
        list.bytes += charge;
    }

    fn unlink(&mut self, peer: u32, entry: u32) {
        let Entry { newer, older, charge, .. } = self.entries[entry as usize];
        let list = &mut self.lists[peer as usize];
        match newer {
            NONE => list.newest = older,
            newer => self.entries[newer as usize].older = older,
        }
        match older {
            NONE => list.oldest = newer,
            older => self.entries[older as usize].newer = newer,
        }
        list.len -= 1;
        list.bytes -= charge;
    }

    fn evict(&mut self, peer: u32) {
        let entry = self.lists[peer as usize].oldest;
        self.unlink(peer, entry);
        self.free_entries.push(entry);
        let at = self.entries[entry as usize].item;
        let item = &mut self.items[at as usize];
        if item.first.0 != peer {
            item.others.retain(|it| it.0 != peer);
        } else if let Some(other) = item.others.pop() {
            item.first = other;
        } else {
            item.message = None;
            self.index.remove(&item.digest);
            self.free_items.push(at);
        }
    }

    /// Lets the ticket wait for the digest, unless it is cached. Returns whether it waits.
    pub fn subscribe(&mut self, ticket: u64, digest: &K) -> bool {
        let waits = !self.index.contains_key(digest);
        if waits {
            self.waiters.entry(*digest).or_default().push(ticket);
        }
        waits
    }

    /// Drops the waiter with this ticket. Returns whether it waited for the digest.
    pub fn cancel(&mut self, digest: &K, ticket: u64) -> bool {
        let Slot::Occupied(mut slot) = self.waiters.entry(*digest) else { return false };
        let before = slot.get().len();
        slot.get_mut().retain(|it| *it != ticket);
        let was_waiting = slot.get().len() < before;
        if slot.get().is_empty() {
            slot.remove();
        }
        was_waiting
    }

    pub fn get(&self, digest: &K) -> Option<&M> {
        self.items[*self.index.get(digest)? as usize].message.as_ref()
    }

    pub fn list(&self, peer: &K) -> Vec<K> {
        let Some(peer) = self.peers.get(peer) else { return Vec::new() };
        let list = &self.lists[*peer as usize];
        let mut digests = Vec::with_capacity(list.len);
        let mut at = list.newest;
        while at != NONE {
            let entry = self.entries[at as usize];
            digests.push(self.items[entry.item as usize].digest);
            at = entry.older;
        }
        digests
    }

    pub fn cached(&self) -> usize {
        self.index.len()
    }
}
