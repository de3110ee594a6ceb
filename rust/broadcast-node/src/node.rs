//! The node: it is handed what happened, and returns what is to be replied and sent.

mod books;
mod limits;
mod results;
mod wire;

pub use books::Counters;
pub use limits::Limits;
pub use results::{Broadcast, Message, Received, Recipients};
pub use wire::Invalid;

use crate::{
    Cache, Digest, Error, Evicted, Key, Outcome, Refused, RestoreError, Snapshot, Subscribed,
    Taken, Ticket,
};
use books::{Books, Counted};
use std::fmt;
use std::ops::Deref;

/// A node without input and output: a cache that encodes, decodes and digests messages.
///
/// A node derefs to its cache, so it reports all that a [`Cache`] reports. A message is a list of bytes. The node keeps it in
/// the payload `B` that carried it, and copies nothing: `B` may be `Vec<u8>`, `Arc<[u8]>` or `bytes::Bytes`.
///
/// ```
/// use broadcast_node::{Key, Limits, Node, Outcome, Received, Recipients, Subscribed};
/// use std::sync::Arc;
///
/// # fn main() -> Result<(), broadcast_node::Error> {
/// let (here, there) = (Key::from([1; 32]), Key::from([2; 32]));
/// let mut sender = Node::<Arc<[u8]>>::new(here, Limits::default())?;
/// let mut receiver = Node::<Arc<[u8]>>::new(there, Limits::default())?;
/// sender.update_primary_peers(&[here, there])?;
/// receiver.update_primary_peers(&[here, there])?;
///
/// let sent = sender.broadcast(Recipients::All, b"hello")?;
/// let (digest, payload) = (sent.digest, sent.payload().clone());
///
/// let Subscribed::Waiting(ticket) = receiver.subscribe(&digest)? else { panic!("it is cached") };
/// let Received::Taken(message) = receiver.payload(&here, payload)? else { panic!("it is invalid") };
/// assert_eq!(message.outcome, Outcome::Inserted);
/// assert_eq!(message.served, [ticket]); // .. are replied to with the message:
/// assert_eq!(message.bytes(), b"hello");
/// drop(message); // and what it evicted
/// assert_eq!(receiver.get(&digest), Some(&b"hello"[..]));
///
/// let garbage: Arc<[u8]> = Arc::from(&b"garbage"[..]);
/// assert!(matches!(receiver.payload(&here, garbage)?, Received::Invalid(_)));
/// assert_eq!(receiver.counters(&here).invalid, 1);
/// # Ok(())
/// # }
/// ```
pub struct Node<B> {
    cache: Cache<B>,
    limits: Limits,
    books: Books,
}

impl<B: AsRef<[u8]>> Node<B> {
    /// Creates a node with the key `own` and an empty cache. No peer is primary yet.
    ///
    /// # Errors
    ///
    /// Those of [`Cache::new`].
    pub fn new(own: Key, limits: Limits) -> Result<Node<B>, Error> {
        let cache = Cache::new(own, limits.deque_size, limits.byte_budget)?;
        Ok(Node { cache, limits, books: Books::default() })
    }

    /// Makes `keys` the primary ones, in any order and with repeats. Drops the lists of all others. Returns the payloads
    /// of the messages that are on no list any more.
    ///
    /// # Errors
    ///
    /// [`Error::Memory`].
    pub fn update_primary_peers(&mut self, keys: &[Key]) -> Result<Evicted<'_, B>, Error> {
        let books = self.books.for_keys(keys)?;
        let evicted = self.cache.update_primary_peers(keys)?;
        self.books = books;
        Ok(evicted)
    }

    /// Returns the limits.
    pub const fn limits(&self) -> &Limits {
        &self.limits
    }

    /// Takes a message under the own key and the SHA-256 of its bytes, and encodes it.
    ///
    /// `Vec<u8>` and `Bytes` are made of the encoding as it is. `Arc<[u8]>` copies it, and aborts if it finds no memory.
    ///
    /// # Errors
    ///
    /// [`Error::TooLong`], and [`Error::Memory`].
    pub fn broadcast(&mut self, to: Recipients, message: &[u8]) -> Result<Broadcast<'_, B>, Error>
    where
        B: From<Vec<u8>>,
    {
        let payload = wire::encode(message, self.limits.max_len)?;
        self.send(to, Digest::sha256(message), payload)
    }

    /// Does the same under a digest that is handed in. [`Node::payload_as`] of another node takes it under
    /// that digest too.
    ///
    /// # Errors
    ///
    /// [`Error::TooLong`], and [`Error::Memory`].
    pub fn broadcast_as(
        &mut self,
        to: Recipients,
        digest: &Digest,
        message: &[u8],
    ) -> Result<Broadcast<'_, B>, Error>
    where
        B: From<Vec<u8>>,
    {
        let payload = wire::encode(message, self.limits.max_len)?;
        self.send(to, *digest, payload)
    }

    fn send(
        &mut self,
        recipients: Recipients,
        digest: Digest,
        payload: Vec<u8>,
    ) -> Result<Broadcast<'_, B>, Error>
    where
        B: From<Vec<u8>>,
    {
        let charge = payload.len();
        let taken = self.cache.take_own(&digest, charge, B::from(payload))?;
        let Taken { outcome, served, message: payload, evicted } = taken;
        Ok(Broadcast { recipients, digest, outcome, served, payload, evicted })
    }

    /// Decodes the bytes that the peer sent, and takes the message under its key and the SHA-256 of its
    /// bytes.
    ///
    /// # Errors
    ///
    /// [`Error::Memory`], with the payload, which is not counted.
    pub fn payload(&mut self, peer: &Key, payload: B) -> Result<Received<'_, B>, Refused<B>> {
        self.payload_with(peer, payload, Digest::sha256)
    }

    /// Does the same under a digest that is handed in.
    ///
    /// # Errors
    ///
    /// [`Error::Memory`], with the payload, which is not counted.
    pub fn payload_as(
        &mut self,
        peer: &Key,
        digest: &Digest,
        payload: B,
    ) -> Result<Received<'_, B>, Refused<B>> {
        self.payload_with(peer, payload, |_| *digest)
    }

    /// Does the same under the digest that `digest` returns for the bytes of the message, for example one that is part of
    /// them. It is not called for a message that is ignored.
    ///
    /// # Errors
    ///
    /// [`Error::Memory`], with the payload, which is not counted.
    pub fn payload_with(
        &mut self,
        peer: &Key,
        payload: B,
        digest: impl FnOnce(&[u8]) -> Digest,
    ) -> Result<Received<'_, B>, Refused<B>> {
        let charge = payload.as_ref().len();
        let (counters, has_books) = self.books.of_mut(peer);
        let message = match wire::decode(payload.as_ref(), self.limits.max_len) {
            Ok(message) => message,
            Err(reason) => {
                counters.count(Counted::Invalid);
                return Ok(Received::Invalid(reason));
            }
        };
        let ignored = match self.cache.waiting() {
            0 if !has_books && !self.cache.is_primary(peer) => Some(Outcome::Ineligible),
            0 if charge as u64 > self.limits.byte_budget => Some(Outcome::Oversize),
            _ => None, // it may be kept, or is awaited
        };
        if let Some(outcome) = ignored {
            counters.count(Counted::Outcome(outcome));
            return Ok(Received::Ignored(outcome));
        }
        let digest = digest(message);
        let taken = self.cache.receive(peer, &digest, charge, payload, counters)?;
        let Taken { outcome, served, message: payload, evicted } = taken;
        Ok(Received::Taken(Message { digest, outcome, served, payload, evicted }))
    }

    /// Returns the cached message of the digest, or a ticket that waits for it.
    ///
    /// # Errors
    ///
    /// [`Error::Memory`].
    pub fn subscribe(&mut self, digest: &Digest) -> Result<Subscribed<'_, [u8]>, Error> {
        Ok(match self.cache.subscribe(digest)? {
            Subscribed::Cached(payload) => Subscribed::Cached(wire::message_of(payload.as_ref())),
            Subscribed::Waiting(ticket) => Subscribed::Waiting(ticket),
        })
    }

    /// Returns the bytes of the cached message of the digest.
    pub fn get(&self, digest: &Digest) -> Option<&[u8]> {
        self.get_payload(digest).map(|payload| wire::message_of(payload.as_ref()))
    }

    /// Returns the payload of the cached message of the digest: its encoding, which can be sent as it is.
    pub fn get_payload(&self, digest: &Digest) -> Option<&B> {
        self.cache.get(digest)
    }

    /// Drops the waiters with these tickets. Returns how many they were.
    pub fn cleanup(&mut self, tickets: &[Ticket]) -> u64 {
        self.cache.cleanup(tickets)
    }

    /// Drops the waiter with this ticket, if it waits for the digest, as [`Cache::cancel`] does. Returns whether it
    /// did.
    pub fn cancel(&mut self, digest: &Digest, ticket: Ticket) -> bool {
        self.cache.cancel(digest, ticket)
    }

    /// Returns what the payloads of the primary key `peer` were, since it last became primary.
    pub fn counters(&self, peer: &Key) -> Counters {
        self.books.of(peer)
    }

    /// Returns the sum over all payloads of keys that were not primary, and of keys that are not any more.
    pub fn other_counters(&self) -> Counters {
        self.books.others()
    }
}

impl<B: AsRef<[u8]> + Clone> Node<B> {
    /// Returns the lists and their payloads, as [`Cache::snapshot`] does. Counters are no part of it.
    ///
    /// # Errors
    ///
    /// [`Error::Memory`].
    pub fn snapshot(&mut self) -> Result<Snapshot<B>, Error> {
        self.cache.snapshot()
    }
}

impl<B: AsRef<[u8]>> Node<B> {
    /// Creates a node with the primary keys, the lists and the payloads of the snapshot, as [`Cache::restore`] does.
    ///
    /// Decodes each payload, and charges each list for the payload of a digest its length: the charges of the snapshot count
    /// for nothing. It compares no digest with its message.
    ///
    /// # Errors
    ///
    /// Those of [`Cache::restore`], and [`RestoreError::Invalid`].
    pub fn restore(
        own: Key,
        limits: Limits,
        mut snapshot: Snapshot<B>,
    ) -> Result<Node<B>, RestoreError> {
        let Snapshot { lists, messages } = &mut snapshot;
        for (digest, charge, payload) in &mut *messages {
            let invalid = |reason| RestoreError::Invalid(*digest, reason);
            wire::decode(payload.as_ref(), limits.max_len).map_err(invalid)?;
            *charge = payload.as_ref().len();
        }
        messages.sort_unstable_by_key(|it| it.0);
        for (digest, charge) in lists.iter_mut().flat_map(|it| &mut it.1) {
            if let Ok(place) = messages.binary_search_by_key(digest, |it| it.0) {
                *charge = messages[place].1;
            }
        }
        let cache = Cache::restore(own, limits.deque_size, limits.byte_budget, snapshot)?;
        let books = Books::default().for_keys(cache.primary_peers())?;
        Ok(Node { cache, limits, books })
    }
}

/// A node is read as its cache is, whose messages are the payloads.
impl<B> Deref for Node<B> {
    type Target = Cache<B>;

    fn deref(&self) -> &Cache<B> {
        &self.cache
    }
}

impl<B> fmt::Debug for Node<B> {
    fn fmt(&self, f: &mut fmt::Formatter<'_>) -> fmt::Result {
        f.debug_struct("Node")
            .field("cache", &self.cache)
            .field("limits", &self.limits)
            .finish_non_exhaustive()
    }
}
