//! The owner of a store's handle, with the library's functions as safe calls.

use super::{Counts, OK, SHORT, StoreHandle, Stored, WAITS, done, error, heap, is_usable};
use crate::{Counters, Digest, Error, Key, Ticket};
use std::cell::UnsafeCell;
use std::hint::black_box;

/// A store of the library, which knows each message by its digest, its charge and a number.
pub struct Store {
    // A full handle, from `new` to the drop. Each call, also one that only reads, wants a `&mut` handle, since the
    // library shares none. It is in a cell so that reads take `&self`: no call calls back, and an owner is not `Sync`,
    // so no two such `&mut` are alive at once.
    handle: UnsafeCell<StoreHandle>,
}

// SAFETY: the library proves that a handle may move to another thread (`Send` of its handle), and an
// owner has nothing else.
unsafe impl Send for Store {}

// SAFETY of all calls below: the handle is full, nothing else uses it during the call, and each
// pointer with its length is that of a slice that is borrowed for the call, as the header asks.
impl Store {
    /// Creates a store whose lists have at most `deque_size` digests, charged at most `byte_budget` together.
    pub fn new(own: &Key, deque_size: usize, byte_budget: u64) -> Result<Store, Error> {
        is_usable()?;
        black_box(heap::addresses());
        let mut handle = StoreHandle::EMPTY;
        // SAFETY: the handle is empty, as it is before its first call.
        done(unsafe { super::broadcast_store_new(&mut handle, own, deque_size, byte_budget) })?;
        Ok(Store { handle: UnsafeCell::new(handle) })
    }

    pub fn peers(&mut self, keys: &[Key]) -> Result<(), Error> {
        let handle = self.handle.get_mut();
        // SAFETY: see above.
        done(unsafe { super::broadcast_store_peers(handle, keys.as_ptr(), keys.len()) })
    }

    #[inline]
    pub fn take(
        &mut self,
        peer: &Key,
        digest: &Digest,
        charge: usize,
        number: u64,
    ) -> Result<Stored, Error> {
        let (handle, mut out) = (self.handle.get_mut(), Stored::default());
        // SAFETY: see above.
        done(unsafe {
            super::broadcast_store_take(handle, peer, digest, charge, number, &mut out)
        })?;
        Ok(out)
    }

    /// Takes a message, and counts its outcome.
    #[inline]
    pub fn receive(
        &mut self,
        peer: &Key,
        digest: &Digest,
        charge: usize,
        number: u64,
        counters: &mut Counters,
    ) -> Result<Stored, Error> {
        let (handle, mut out) = (self.handle.get_mut(), Stored::default());
        // SAFETY: see above.
        done(unsafe {
            super::broadcast_store_receive(handle, peer, digest, charge, number, counters, &mut out)
        })?;
        Ok(out)
    }

    /// Writes the tickets that the last message served. There must be room for all.
    pub fn served(&self, room: &mut [Ticket]) -> Result<(), Error> {
        let (at, len) = (room.as_mut_ptr(), room.len());
        // SAFETY: see above, and the field.
        done(unsafe { super::broadcast_store_served(&mut *self.handle.get(), at, len, &mut 0) })
    }

    /// Moves the numbers of evicted messages to the front of the room, the newest first. Returns how many. This never
    /// fails on a full handle, nor do the calls below that return no error.
    #[inline]
    pub fn left(&mut self, room: &mut [u64]) -> usize {
        let (at, len) = (room.as_mut_ptr(), room.len());
        let mut moved = 0;
        // SAFETY: see above.
        unsafe { super::broadcast_store_left(self.handle.get_mut(), at, len, &mut moved) };
        moved
    }

    /// Lets a ticket wait. Returns false if the message is cached.
    pub fn subscribe(&mut self, ticket: u64, digest: &Digest) -> Result<bool, Error> {
        // SAFETY: see above.
        match unsafe { super::broadcast_store_subscribe(self.handle.get_mut(), ticket, digest) } {
            WAITS => Ok(true),
            OK => Ok(false),
            status => Err(error(status)),
        }
    }

    /// Returns how many waiters were removed.
    pub fn cleanup(&mut self, tickets: &[Ticket]) -> u64 {
        let (handle, at, len) = (self.handle.get_mut(), tickets.as_ptr(), tickets.len());
        let mut removed = 0;
        // SAFETY: see above.
        unsafe { super::broadcast_store_cleanup(handle, at, len, &mut removed) };
        removed
    }

    /// Returns how many waiters of the digest were removed.
    pub fn cleanup_of(&mut self, digest: &Digest, tickets: &[Ticket]) -> u64 {
        let (handle, at, len) = (self.handle.get_mut(), tickets.as_ptr(), tickets.len());
        let mut removed = 0;
        // SAFETY: see above.
        unsafe { super::broadcast_store_cleanup_of(handle, digest, at, len, &mut removed) };
        removed
    }

    /// Returns the number of the cached message.
    #[inline]
    pub fn get(&self, digest: &Digest) -> Option<u64> {
        let mut number = 0;
        // SAFETY: see above, and the field.
        let status =
            unsafe { super::broadcast_store_get(&mut *self.handle.get(), digest, &mut number) };
        (status == OK).then_some(number)
    }

    pub fn is_primary(&self, peer: &Key) -> bool {
        let mut out = false;
        // SAFETY: see above, and the field.
        unsafe { super::broadcast_store_is_primary(&mut *self.handle.get(), peer, &mut out) };
        out
    }

    /// Returns what the list of a peer is charged.
    pub fn bytes(&self, peer: &Key) -> u64 {
        let mut out = 0;
        // SAFETY: see above, and the field.
        unsafe { super::broadcast_store_bytes(&mut *self.handle.get(), peer, &mut out) };
        out
    }

    /// Puts the list of a peer into `out`, if that has room for all of it, and nothing else. Returns the length of the list.
    pub fn list(&self, peer: &Key, out: &mut Vec<Digest>) -> Result<usize, Error> {
        out.clear();
        let room = out.spare_capacity_mut();
        let (at, len) = (room.as_mut_ptr().cast::<Digest>(), room.len());
        let mut needed = 0;
        // SAFETY: see above, and the field. The library reads no place of the room. If it returns OK it has written the
        // first `needed` ones, which are there.
        let status = unsafe {
            super::broadcast_store_list(&mut *self.handle.get(), peer, at, len, &mut needed)
        };
        match status {
            // SAFETY: see above.
            OK => unsafe { out.set_len(needed) },
            SHORT => {}
            other => return Err(error(other)),
        }
        Ok(needed)
    }

    /// Returns how many messages are cached, and how many digests are awaited.
    pub fn count(&self) -> Counts {
        let mut out = Counts::default();
        // SAFETY: see above, and the field.
        unsafe { super::broadcast_store_count(&mut *self.handle.get(), &mut out) };
        out
    }
}

impl Drop for Store {
    fn drop(&mut self) {
        // SAFETY: see above; the handle is not used after.
        unsafe { super::broadcast_store_free(self.handle.get_mut()) }
    }
}
