//! The counters of an engine.

use crate::Id;
use crate::id::{self, Hex};
use broadcast_node::{Counts, Key};
use std::collections::{BTreeMap, HashMap};
use std::fmt;
use std::sync::atomic::{AtomicU64, Ordering::Relaxed};
use std::sync::{Arc, Mutex, MutexGuard, PoisonError};

/// What an engine has counted since its start.
#[derive(Clone, Debug, Default, PartialEq, Eq)]
#[cfg_attr(feature = "serde", derive(serde::Serialize, serde::Deserialize), serde(default))]
#[non_exhaustive]
pub struct Stats {
    /// Messages received from each primary peer, by its key in hexadecimal.
    pub peers: BTreeMap<String, u64>,
    /// Messages received from all other keys.
    pub other_peers: u64,
    /// Received payloads by status.
    pub receive: ByStatus,
    /// `subscribe` requests by status.
    pub subscribe: ByStatus,
    /// `get` requests by status.
    pub get: ByStatus,
    /// Digests that are awaited now.
    pub waiters: u64,
    /// Messages that are cached now.
    pub cached: u64,
}

/// A number by status.
#[derive(Clone, Copy, Debug, Default, PartialEq, Eq)]
#[cfg_attr(feature = "serde", derive(serde::Serialize, serde::Deserialize), serde(default))]
#[non_exhaustive]
pub struct ByStatus {
    /// Cached, or replied to with a message.
    pub success: u64,
    /// Replied to without a message.
    pub failure: u64,
    /// Received and not cached anew, or given up by the caller.
    pub dropped: u64,
    /// Not decoded.
    pub invalid: u64,
}

/// The counters of an engine. Clones share them.
#[derive(Clone, Default)]
pub struct Metrics(Arc<Counters>);

#[derive(Default)]
pub(crate) struct Counters {
    peers: Mutex<Peers>,
    pub receive: Statuses,
    pub subscribe: Statuses,
    pub get: Statuses,
    pub waiters: AtomicU64,
    pub cached: AtomicU64,
}

/// The counters of the primary peers, and that of all others: so others can't make them grow.
#[derive(Default)]
struct Peers {
    primary: HashMap<Key, (String, u64)>,
    others: u64,
}

#[derive(Default)]
pub(crate) struct Statuses {
    pub success: Counter,
    pub failure: Counter,
    pub dropped: Counter,
    pub invalid: Counter,
}

#[derive(Default)]
pub(crate) struct Counter(AtomicU64);

impl Counter {
    pub fn inc(&self) {
        self.0.fetch_add(1, Relaxed);
    }
}

impl Statuses {
    fn snapshot(&self) -> ByStatus {
        let of = |counter: &Counter| counter.0.load(Relaxed);
        ByStatus {
            success: of(&self.success),
            failure: of(&self.failure),
            dropped: of(&self.dropped),
            invalid: of(&self.invalid),
        }
    }
}

impl Counters {
    fn lock(&self) -> MutexGuard<'_, Peers> {
        self.peers.lock().unwrap_or_else(PoisonError::into_inner)
    }

    /// Counts a message on its sender.
    pub fn count_peer(&self, peer: &Key) {
        let mut peers = self.lock();
        match peers.primary.get_mut(peer) {
            Some((_, count)) => *count += 1,
            None => peers.others += 1,
        }
    }

    /// Sets the gauges.
    pub fn show_sizes(&self, counts: Counts) {
        self.waiters.store(counts.awaited as u64, Relaxed);
        self.cached.store(counts.cached as u64, Relaxed);
    }

    /// Keeps a counter for each of these keys. The counts of all other keys are added up.
    pub fn set_peers(&self, keys: &[impl Id]) {
        let mut peers = self.lock();
        let mut old = std::mem::take(&mut peers.primary);
        for peer in keys {
            let key = id::key(peer);
            let new = || (Hex(peer.as_ref()).to_string(), 0);
            let counter = old.remove(&key);
            // A key that is repeated has its counter already.
            peers.primary.entry(key).or_insert_with(|| counter.unwrap_or_else(new));
        }
        peers.others += old.values().map(|it| it.1).sum::<u64>();
    }
}

impl Metrics {
    pub(crate) fn counters(&self) -> &Counters {
        &self.0
    }

    /// Returns what was counted until now.
    pub fn snapshot(&self) -> Stats {
        let (peers, other_peers) = {
            let peers = self.0.lock();
            (peers.primary.values().cloned().collect(), peers.others)
        };
        Stats {
            peers,
            other_peers,
            receive: self.0.receive.snapshot(),
            subscribe: self.0.subscribe.snapshot(),
            get: self.0.get.snapshot(),
            waiters: self.0.waiters.load(Relaxed),
            cached: self.0.cached.load(Relaxed),
        }
    }
}

impl fmt::Debug for Metrics {
    fn fmt(&self, f: &mut fmt::Formatter<'_>) -> fmt::Result {
        self.snapshot().fmt(f)
    }
}
