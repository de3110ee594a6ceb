//! The lists of a cache as plain data.

use crate::slots::{Slot, Slots};
use crate::{Cache, Digest, Error, Invalid, Key, Outcome};
use std::collections::TryReserveError;
use std::fmt;

/// The lists of a cache and their messages, as plain data that a program may store. [`Cache::restore`] and
/// [`Node::restore`](crate::Node::restore) make a cache or a node with the same lists of it.
///
/// Tickets that wait are no part of a snapshot.
#[derive(Clone, Debug, PartialEq, Eq)]
#[cfg_attr(feature = "serde", derive(serde::Serialize, serde::Deserialize))]
#[non_exhaustive]
pub struct Snapshot<M> {
    /// The primary keys in order, each with its list: the digests, newest first, and what the list is charged for each.
    pub lists: Vec<(Key, Vec<(Digest, usize)>)>,
    /// The cached messages in any order, each with its digest and what it was charged when it came.
    pub messages: Vec<(Digest, usize, M)>,
}

impl<M> Snapshot<M> {
    /// Creates a snapshot of its parts.
    pub const fn new(
        lists: Vec<(Key, Vec<(Digest, usize)>)>,
        messages: Vec<(Digest, usize, M)>,
    ) -> Snapshot<M> {
        Snapshot { lists, messages }
    }
}

/// Why a snapshot was not restored.
#[derive(Clone, Copy, Debug, PartialEq, Eq, Hash)]
#[non_exhaustive]
pub enum RestoreError {
    /// The cache cannot be made.
    Cache(Error),
    /// The key has two lists.
    RepeatedList(Key),
    /// The digest is on the list of this key twice.
    RepeatedDigest(Key, Digest),
    /// Two messages have the digest.
    RepeatedMessage(Digest),
    /// The digest is on a list, and has no message.
    NoMessage(Digest),
    /// The message of the digest is on no list.
    Unlisted(Digest),
    /// A list has more digests than the cache allows.
    TooManyDigests {
        /// The key of the list.
        key: Key,
        /// How many digests the list has.
        found: usize,
        /// The most that a list may have.
        allowed: usize,
    },
    /// A list is charged more than the cache allows.
    TooManyBytes {
        /// The key of the list.
        key: Key,
        /// What the list is charged.
        found: u128,
        /// The most that a list may be charged.
        allowed: u64,
    },
    /// The payload of the digest does not decode.
    Invalid(Digest, Invalid),
}

impl fmt::Display for RestoreError {
    fn fmt(&self, f: &mut fmt::Formatter<'_>) -> fmt::Result {
        match self {
            RestoreError::Cache(error) => error.fmt(f),
            RestoreError::RepeatedList(key) => write!(f, "the key {key} has two lists"),
            RestoreError::RepeatedDigest(key, digest) => {
                write!(f, "the digest {digest} is on the list of {key} twice")
            }
            RestoreError::RepeatedMessage(digest) => {
                write!(f, "two messages have the digest {digest}")
            }
            RestoreError::NoMessage(digest) => {
                write!(f, "the digest {digest} is on a list, and has no message")
            }
            RestoreError::Unlisted(digest) => {
                write!(f, "the message of the digest {digest} is on no list")
            }
            RestoreError::TooManyDigests { key, found, allowed } => {
                write!(
                    f,
                    "the list of {key} has {found} digests, and at most {allowed} are allowed"
                )
            }
            RestoreError::TooManyBytes { key, found, allowed } => {
                write!(
                    f,
                    "the list of {key} is charged {found} bytes, and at most {allowed} are allowed"
                )
            }
            RestoreError::Invalid(digest, reason) => {
                write!(f, "the payload of the digest {digest} does not decode: {reason}")
            }
        }
    }
}

impl std::error::Error for RestoreError {}

impl From<Error> for RestoreError {
    fn from(error: Error) -> RestoreError {
        RestoreError::Cache(error)
    }
}

impl From<TryReserveError> for RestoreError {
    fn from(_: TryReserveError) -> RestoreError {
        RestoreError::Cache(Error::Memory)
    }
}

impl<M: Clone> Cache<M> {
    /// Returns the lists and their messages. The cache stays as it is.
    ///
    /// The library reports the sum of a list's charges alone. So each digest is taken twice more, which costs time: about a
    /// microsecond.
    ///
    /// # Errors
    ///
    /// [`Error::Memory`].
    pub fn snapshot(&mut self) -> Result<Snapshot<M>, Error> {
        let (mut lists, mut messages) = (Vec::new(), Vec::new());
        lists.try_reserve_exact(self.primary.len())?;
        messages.try_reserve_exact(self.len())?;
        for place in 0..self.primary.len() {
            let key = self.primary[place];
            lists.push((key, self.charged_list(&key)?));
        }
        messages.extend(self.cached().map(|it| (it.digest, it.charge, it.message.clone())));
        Ok(Snapshot { lists, messages })
    }
}

impl<M> Cache<M> {
    /// Returns the digests on a list, newest first, with their charges.
    ///
    /// Each digest, from the oldest on, is taken at no charge, which lowers the sum by its charge, and again at its charge.
    /// In the end each was put in front of the list once, so the list is as it was. Of all these takes only the first may
    /// fail: a digest that is on the list is taken without an allocation, but for a block that the store keeps.
    fn charged_list(&mut self, key: &Key) -> Result<Vec<(Digest, usize)>, Error> {
        let digests = self.list(key)?;
        let mut list = Vec::new();
        list.try_reserve_exact(digests.len())?;
        list.extend(digests.into_iter().map(|it| (it, 0)));
        let sum = self.store.bytes(key);
        for (digest, charge) in list.iter_mut().rev() {
            self.store.take(key, digest, 0, 0)?;
            let rest = self.store.bytes(key);
            *charge = usize::try_from(sum - rest).unwrap_or(usize::MAX); // as a `usize` it came
            self.store.take(key, digest, *charge, 0)?;
        }
        Ok(list)
    }

    /// Creates a cache as [`Cache::new`] does, with the primary keys, the lists and the messages of the snapshot. It compares
    /// no digest with its message.
    ///
    /// # Errors
    ///
    /// Those of [`Cache::new`]. One that names what does not fit, if the snapshot's lists are not those of a cache with these
    /// limits.
    ///
    /// ```
    /// # use broadcast_node::{Cache, Digest, Key};
    /// # fn main() -> Result<(), Box<dyn std::error::Error>> {
    /// let own = Key::from([1; 32]);
    /// let mut cache = Cache::new(own, 10, 1_000)?;
    /// cache.update_primary_peers(&[own])?;
    /// let _ = cache.take_own(&Digest::new([7; 32]), 5, "hello")?;
    /// let snapshot = cache.snapshot()?;
    /// let restored = Cache::restore(own, 10, 1_000, snapshot.clone())?;
    /// assert_eq!(restored.get(&Digest::new([7; 32])), Some(&"hello"));
    ///
    /// let refused = Cache::restore(own, 10, 4, snapshot).unwrap_err();
    /// assert!(refused.to_string().ends_with("is charged 5 bytes, and at most 4 are allowed"));
    /// # Ok(())
    /// # }
    /// ```
    pub fn restore(
        own: Key,
        deque_size: usize,
        byte_budget: u64,
        snapshot: Snapshot<M>,
    ) -> Result<Cache<M>, RestoreError> {
        let Snapshot { lists, mut messages } = snapshot;
        let mut cache = Cache::new(own, deque_size, byte_budget)?;
        cache.restore_peers(&lists)?;
        messages.sort_unstable_by_key(|it| it.0);
        if let Some(it) = messages.windows(2).find(|it| it[0].0 == it[1].0) {
            return Err(RestoreError::RepeatedMessage(it[0].0));
        }
        for (key, list) in &lists {
            let (found, allowed) = (list.len(), deque_size);
            if found > allowed {
                return Err(RestoreError::TooManyDigests { key: *key, found, allowed });
            }
            let (found, allowed) = (list.iter().map(|it| it.1 as u128).sum(), byte_budget);
            if found > u128::from(allowed) {
                return Err(RestoreError::TooManyBytes { key: *key, found, allowed });
            }
            // The number of a message is its place. The store keeps the number that comes first.
            for (digest, charge) in list.iter().rev() {
                let place = messages.binary_search_by_key(digest, |it| it.0);
                let number = place.map_err(|_| RestoreError::NoMessage(*digest))? as u64;
                if cache.store.take(key, digest, *charge, number)?.outcome()? != Outcome::Inserted {
                    return Err(RestoreError::RepeatedDigest(*key, *digest));
                }
            }
        }
        if let Some(it) = messages.iter().find(|it| !cache.contains(&it.0)) {
            return Err(RestoreError::Unlisted(it.0));
        }
        let slots = messages.into_iter();
        cache.slots =
            Slots::filled(slots.map(|(digest, charge, message)| Slot { digest, charge, message }))?;
        Ok(cache)
    }

    fn restore_peers<T>(&mut self, lists: &[(Key, T)]) -> Result<(), RestoreError> {
        let mut keys = Vec::new();
        keys.try_reserve_exact(lists.len())?;
        keys.extend(lists.iter().map(|it| it.0));
        keys.sort_unstable();
        if let Some(it) = keys.windows(2).find(|it| it[0] == it[1]) {
            return Err(RestoreError::RepeatedList(it[0]));
        }
        self.update_primary_peers(&keys)?;
        Ok(())
    }
}
