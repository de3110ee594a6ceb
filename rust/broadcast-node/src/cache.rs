//! The cache.

use crate::raw::{self, Store, Stored};
use crate::slots::{Slot, Slots};
use crate::taken::{Evicted, Held, Subscribed, Taken};
use crate::tickets::Tickets;
use crate::{Counters, Counts, Digest, Error, Key, Refused, Ticket};
use std::fmt;

/// The most places that are made for a list before its length is known. A list that may be longer is asked for its length
/// first: of a list of 1,000 this second search is one percent of the instructions, and a short list gets no room for 1,000.
const FEW: usize = 128;

/// A node's cache of messages, and the tickets that wait for one.
///
/// The verified library decides which digests are listed and cached, and which tickets wait. It knows a message by its
/// digest, its charge and a number. The messages themselves are in the cache, and may have any type; an `Arc` or
/// `Bytes` is not copied.
///
/// ```
/// use broadcast_node::{Cache, Digest, Key, Outcome, Subscribed, Taken};
/// use std::sync::Arc;
///
/// # fn main() -> Result<(), broadcast_node::Error> {
/// let (own, peer) = (Key::from([1; 32]), Key::from([5; 48]));
/// let mut cache = Cache::new(own, 10, 1_000_000)?; // digests a peer, bytes a peer
/// cache.update_primary_peers(&[own, peer])?;
///
/// let digest = Digest::from([7; 32]);
/// let Subscribed::Waiting(ticket) = cache.subscribe(&digest)? else { panic!("it is cached") };
///
/// let message: Arc<str> = "hello".into();
/// let Taken { outcome, served, message, .. } = cache.take(&peer, &digest, 5, message)?;
/// assert_eq!(outcome, Outcome::Inserted);
/// assert_eq!((served, &**message), (&[ticket][..], "hello"));
/// assert_eq!(cache.get(&digest).map(|it| &**it), Some("hello"));
/// assert_eq!(cache.list(&peer)?, [digest]);
/// # Ok(())
/// # }
/// ```
pub struct Cache<M> {
    pub(crate) store: Store,
    own: Key,
    deque_size: usize,
    pub(crate) primary: Vec<Key>,
    pub(crate) slots: Slots<M>,
    tickets: Tickets,
}

impl<M> Cache<M> {
    /// Creates an empty cache for the node `own`. The list of each peer has at most `deque_size` digests, which are
    /// charged at most `byte_budget` together. No peer is primary yet.
    ///
    /// # Errors
    ///
    /// [`Error::Memory`]. [`Error::Processor`] and [`Error::Version`] if the library cannot be used.
    pub fn new(own: Key, deque_size: usize, byte_budget: u64) -> Result<Cache<M>, Error> {
        Ok(Cache {
            store: Store::new(&own, deque_size, byte_budget)?,
            own,
            deque_size,
            primary: Vec::new(),
            slots: Slots::new(),
            tickets: Tickets::new(),
        })
    }

    /// Returns the own key.
    pub fn own(&self) -> &Key {
        &self.own
    }

    /// Makes `keys` the primary ones, in any order and with repeats. Drops the lists of all others. Returns the messages
    /// that are on no list any more.
    ///
    /// # Errors
    ///
    /// [`Error::Memory`].
    pub fn update_primary_peers(&mut self, keys: &[Key]) -> Result<Evicted<'_, M>, Error> {
        let mut primary = Vec::new();
        primary.try_reserve_exact(keys.len())?;
        primary.extend_from_slice(keys);
        primary.sort_unstable();
        primary.dedup();
        self.store.peers(&primary)?;
        self.primary = primary;
        let left = self.slots.release_all(|room| self.store.left(room))?;
        Ok(self.slots.evicted(left))
    }

    /// Returns the primary keys, in order and without repeats.
    pub fn primary_peers(&self) -> &[Key] {
        &self.primary
    }

    /// Returns whether the key is primary.
    pub fn is_primary(&self, key: &Key) -> bool {
        self.store.is_primary(key)
    }

    /// Takes a message under the key `peer` and the digest, at this charge. Neither the digest nor the charge is checked: a
    /// message is cached under whatever digest it came with, and memory is bounded by what the caller charges. Serves all
    /// tickets that wait for the digest, whatever the outcome is. The result has the messages that leave the cache, and drops
    /// those that the caller does not ask for.
    ///
    /// # Errors
    ///
    /// [`Error::Memory`], with the message.
    ///
    /// ```
    /// # use broadcast_node::{Cache, Digest, Key};
    /// # fn main() -> Result<(), broadcast_node::Error> {
    /// let own = Key::from([1; 32]);
    /// let mut cache = Cache::new(own, 1, u64::MAX)?; // lists of one digest
    /// cache.update_primary_peers(&[own])?;
    /// let _ = cache.take(&own, &Digest::new([7; 32]), 3, "old")?;
    /// let mut taken = cache.take(&own, &Digest::new([8; 32]), 3, "new")?;
    /// assert_eq!(taken.evicted.next(), Some((Digest::new([7; 32]), "old")));
    /// # Ok(())
    /// # }
    /// ```
    pub fn take(
        &mut self,
        peer: &Key,
        digest: &Digest,
        charge: usize,
        message: M,
    ) -> Result<Taken<'_, M>, Refused<M>> {
        let number = self.slots.vacant();
        let stored = number.and_then(|it| self.store.take(peer, digest, charge, it));
        self.keep(digest, charge, message, stored)
    }

    /// Takes a message as `take` does, and counts its outcome.
    pub(crate) fn receive(
        &mut self,
        peer: &Key,
        digest: &Digest,
        charge: usize,
        message: M,
        counters: &mut Counters,
    ) -> Result<Taken<'_, M>, Refused<M>> {
        let number = self.slots.vacant();
        let stored = number.and_then(|it| self.store.receive(peer, digest, charge, it, counters));
        self.keep(digest, charge, message, stored)
    }

    /// Keeps the message if the store does. Drops no message: a drop that panics would lose the replies.
    #[inline(always)] // Else a take costs two percent more.
    fn keep(
        &mut self,
        digest: &Digest,
        charge: usize,
        message: M,
        stored: Result<Stored, Error>,
    ) -> Result<Taken<'_, M>, Refused<M>> {
        let reported = stored.and_then(|it| Ok((it.outcome()?, it.kept, self.report(&it)?)));
        let (outcome, is_kept, left) = match reported {
            Ok(it) => it,
            Err(error) => return Err(Refused { error, message }),
        };
        let (message, evicted) = if is_kept {
            let (message, evicted) =
                self.slots.put(Slot { digest: *digest, charge, message }, left);
            (Held::Cached(message), evicted)
        } else {
            (Held::Returned(message), self.slots.evicted(left))
        };
        Ok(Taken { outcome, served: self.tickets.served(), message, evicted })
    }

    /// Moves the served tickets and the numbers of the evicted messages out of the store. Returns how many it evicted.
    #[inline(always)]
    fn report(&mut self, stored: &Stored) -> Result<usize, Error> {
        self.tickets.serve(stored.served, |room| self.store.served(room))?;
        match stored.left {
            0 => Ok(0),
            most => self.slots.release(most, |room| self.store.left(room)),
        }
    }

    /// Takes a message under the own key, as [`Cache::take`] does.
    ///
    /// # Errors
    ///
    /// [`Error::Memory`], with the message.
    pub fn take_own(
        &mut self,
        digest: &Digest,
        charge: usize,
        message: M,
    ) -> Result<Taken<'_, M>, Refused<M>> {
        let own = self.own;
        self.take(&own, digest, charge, message)
    }

    /// Returns the cached message of the digest, or a ticket that waits for it.
    ///
    /// # Errors
    ///
    /// [`Error::Memory`].
    pub fn subscribe(&mut self, digest: &Digest) -> Result<Subscribed<'_, M>, Error> {
        let ticket = self.tickets.draw()?;
        if self.store.subscribe(ticket.0, digest)? {
            self.tickets.wait();
            return Ok(Subscribed::Waiting(ticket));
        }
        // The verified library numbers what is here.
        self.get(digest).map(Subscribed::Cached).ok_or(Error::Status(0))
    }

    /// Returns the cached messages with their digests, in any order.
    pub fn iter(&self) -> impl Iterator<Item = (&Digest, &M)> {
        self.cached().map(|it| (&it.digest, &it.message))
    }

    /// Returns the places of the cached messages.
    pub(crate) fn cached(&self) -> impl Iterator<Item = &Slot<M>> {
        let all_are = !self.slots.has_left();
        let is_cached = move |(number, it): &(u64, &Slot<M>)| {
            all_are || self.store.get(&it.digest) == Some(*number)
        };
        self.slots.iter().filter(is_cached).map(|it| it.1)
    }

    /// Returns the cached message of the digest.
    pub fn get(&self, digest: &Digest) -> Option<&M> {
        Some(&self.slots.get(self.store.get(digest)?)?.message)
    }

    /// Returns whether a message of the digest is cached.
    pub fn contains(&self, digest: &Digest) -> bool {
        self.store.get(digest).is_some()
    }

    /// Returns the digests on the list of `peer`, newest first.
    ///
    /// # Errors
    ///
    /// [`Error::Memory`].
    pub fn list(&self, peer: &Key) -> Result<Vec<Digest>, Error> {
        let mut list = Vec::new();
        self.list_into(peer, &mut list)?;
        Ok(list)
    }

    /// Puts the digests on the list of `peer` into `list`, newest first, and nothing else.
    ///
    /// # Errors
    ///
    /// [`Error::Memory`], with an empty `list`.
    pub fn list_into(&self, peer: &Key, list: &mut Vec<Digest>) -> Result<(), Error> {
        if list.capacity() == 0 && self.deque_size <= FEW {
            list.try_reserve_exact(self.deque_size)?;
        }
        let len = self.store.list(peer, list)?;
        if len > list.len() {
            list.try_reserve_exact(len)?;
            self.store.list(peer, list)?;
        }
        Ok(())
    }

    /// Drops the waiters with these tickets. Returns how many they were.
    ///
    /// It looks at each digest that is awaited. [`Cache::cancel`] drops one waiter without that.
    pub fn cleanup(&mut self, tickets: &[Ticket]) -> u64 {
        let removed = self.store.cleanup(tickets);
        self.tickets.gone(removed);
        removed
    }

    /// Drops the waiter with this ticket, if it waits for the digest. Returns whether it did.
    ///
    /// It looks at the waiters of this digest alone, which it finds in a time that grows with the logarithm of how
    /// many digests are awaited. A ticket that waits for another digest stays.
    pub fn cancel(&mut self, digest: &Digest, ticket: Ticket) -> bool {
        let removed = self.store.cleanup_of(digest, &[ticket]);
        self.tickets.gone(removed);
        removed > 0
    }

    /// Returns how many messages are cached.
    pub fn len(&self) -> usize {
        self.store.count().cached
    }

    /// Returns whether no message is cached. Tickets may wait.
    pub fn is_empty(&self) -> bool {
        self.len() == 0
    }

    /// Returns how many digests are awaited. Each has at least one ticket that waits for it.
    pub fn awaited(&self) -> usize {
        self.store.count().awaited
    }

    /// Returns how many messages are cached, how many digests are awaited, and how many tickets wait.
    pub fn counts(&self) -> Counts {
        let raw::Counts { cached, awaited } = self.store.count();
        Counts { cached, awaited, waiting: self.tickets.waiting() }
    }

    /// Returns how many tickets wait.
    pub fn waiting(&self) -> usize {
        self.tickets.waiting()
    }

    /// Returns the sum of what the cached messages were charged when they came, each once.
    pub fn bytes(&self) -> u64 {
        u64::try_from(self.slots.bytes()).unwrap_or(u64::MAX)
    }

    /// Returns the sum of what the list of `peer` is charged.
    pub fn bytes_of(&self, peer: &Key) -> u64 {
        self.store.bytes(peer)
    }
}

impl<M> fmt::Debug for Cache<M> {
    fn fmt(&self, f: &mut fmt::Formatter<'_>) -> fmt::Result {
        f.debug_struct("Cache")
            .field("own", &self.own)
            .field("counts", &self.counts())
            .finish_non_exhaustive()
    }
}
