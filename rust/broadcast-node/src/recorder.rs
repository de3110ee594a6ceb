//! Notes the calls that caches make of the library's store, so that tests can look at them: in what order they come, and
//! what they pass. Only the feature `recorder` has this module, and the store that notes.

use crate::raw::{self, Stored};
use crate::{Counters, Digest, Error, Key, Ticket};
use std::cell::{Cell, RefCell};
use std::ops::Deref;

/// A call that changes a store, or moves something out of it, and what it reported. Calls that failed are not noted: they
/// changed nothing.
#[derive(Clone, Debug, PartialEq, Eq)]
#[non_exhaustive]
pub enum Call {
    /// `broadcast_store_new`.
    New,
    /// `broadcast_store_peers`.
    Peers(Vec<Key>),
    /// `broadcast_store_take` or `broadcast_store_receive`.
    Take(Take),
    /// `broadcast_store_served`, with the tickets that it copied.
    Served(Vec<Ticket>),
    /// `broadcast_store_left`, with the room that there was, and the handles that it moved out.
    Left(usize, Vec<u64>),
    /// `broadcast_store_subscribe`, with the ticket, the digest, and whether the ticket waits.
    Subscribe(Ticket, Digest, bool),
    /// `broadcast_store_cleanup`.
    Cleanup(Vec<Ticket>),
    /// `broadcast_store_cleanup_of`.
    CleanupOf(Digest, Vec<Ticket>),
    /// `broadcast_store_free`.
    Free,
}

/// What a take was passed, and what it reported.
#[derive(Clone, Debug, PartialEq, Eq)]
#[non_exhaustive]
pub struct Take {
    /// Under which key.
    pub peer: Key,
    /// Of which digest.
    pub digest: Digest,
    /// What the message is charged.
    pub charge: usize,
    /// The store's name for the message.
    pub handle: u64,
    /// Whether the message is cached, and none of its digest was.
    pub kept: bool,
    /// How many tickets it served.
    pub served: usize,
    /// How many handles are to be moved out.
    pub left: usize,
}

thread_local! {
    /// The calls of this thread with the numbers of their stores, while someone wants them.
    static NOTED: RefCell<Option<Vec<(u64, Call)>>> = const { RefCell::new(None) };
    static STORES: Cell<u64> = const { Cell::new(0) };
}

/// Does `work`. Returns the calls that this thread made meanwhile, in their order, each with the number of its store.
pub fn calls(work: impl FnOnce()) -> Vec<(u64, Call)> {
    NOTED.set(Some(Vec::new()));
    work();
    NOTED.take().unwrap_or_default()
}

/// A store of the library whose calls are noted.
pub(crate) struct Store {
    store: raw::PlainStore,
    number: u64,
}

impl Store {
    fn note(&self, call: impl FnOnce() -> Call) {
        NOTED.with_borrow_mut(|it| {
            if let Some(noted) = it {
                noted.push((self.number, call()));
            }
        });
    }

    pub fn new(own: &Key, deque_size: usize, byte_budget: u64) -> Result<Store, Error> {
        let number = STORES.get();
        STORES.set(number + 1);
        let store = Store { store: raw::PlainStore::new(own, deque_size, byte_budget)?, number };
        store.note(|| Call::New);
        Ok(store)
    }

    pub fn peers(&mut self, keys: &[Key]) -> Result<(), Error> {
        self.store.peers(keys)?;
        self.note(|| Call::Peers(keys.to_vec()));
        Ok(())
    }

    fn note_take(&self, peer: &Key, digest: &Digest, charge: usize, handle: u64, it: &Stored) {
        let (peer, digest) = (*peer, *digest);
        let Stored { kept, served, left, .. } = *it;
        self.note(|| Call::Take(Take { peer, digest, charge, handle, kept, served, left }));
    }

    pub fn take(
        &mut self,
        peer: &Key,
        digest: &Digest,
        charge: usize,
        handle: u64,
    ) -> Result<Stored, Error> {
        let stored = self.store.take(peer, digest, charge, handle)?;
        self.note_take(peer, digest, charge, handle, &stored);
        Ok(stored)
    }

    pub fn receive(
        &mut self,
        peer: &Key,
        digest: &Digest,
        charge: usize,
        handle: u64,
        counters: &mut Counters,
    ) -> Result<Stored, Error> {
        let stored = self.store.receive(peer, digest, charge, handle, counters)?;
        self.note_take(peer, digest, charge, handle, &stored);
        Ok(stored)
    }

    pub fn served(&self, room: &mut [Ticket]) -> Result<(), Error> {
        self.store.served(room)?;
        self.note(|| Call::Served(room.to_vec()));
        Ok(())
    }

    pub fn left(&mut self, room: &mut [u64]) -> usize {
        let moved = self.store.left(room);
        self.note(|| Call::Left(room.len(), room[..moved].to_vec()));
        moved
    }

    pub fn subscribe(&mut self, ticket: u64, digest: &Digest) -> Result<bool, Error> {
        let waits = self.store.subscribe(ticket, digest)?;
        self.note(|| Call::Subscribe(Ticket(ticket), *digest, waits));
        Ok(waits)
    }

    pub fn cleanup(&mut self, tickets: &[Ticket]) -> u64 {
        self.note(|| Call::Cleanup(tickets.to_vec()));
        self.store.cleanup(tickets)
    }

    pub fn cleanup_of(&mut self, digest: &Digest, tickets: &[Ticket]) -> u64 {
        self.note(|| Call::CleanupOf(*digest, tickets.to_vec()));
        self.store.cleanup_of(digest, tickets)
    }
}

/// Calls that only read are not noted.
impl Deref for Store {
    type Target = raw::PlainStore;

    fn deref(&self) -> &raw::PlainStore {
        &self.store
    }
}

impl Drop for Store {
    fn drop(&mut self) {
        self.note(|| Call::Free);
    }
}
