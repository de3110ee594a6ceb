//! The caches that are measured: that of this crate, and three in plain Rust.

use crate::expert::Expert;
use crate::hashed::Hashed;
use crate::plain::Plain;
use broadcast_node::{Cache, Digest, Key, Subscribed, Ticket};
use std::hint::black_box;
use std::sync::Arc;

pub type Bytes32 = [u8; 32];
pub type Shared = Arc<[u8]>;

/// A cache whose peers go by their places among the keys that it was made with.
pub trait Side {
    type Ticket: Copy;
    type Listed: Into<Bytes32>;

    fn new(size: usize, keys: &[Bytes32]) -> Self;
    fn take(&mut self, peer: usize, digest: &Bytes32, message: &Shared);
    fn get(&self, digest: &Bytes32) -> Option<&Shared>;
    fn list(&self, peer: usize) -> Vec<Self::Listed>;
    fn subscribe(&mut self, digest: &Bytes32) -> Self::Ticket;
    fn cancel(&mut self, digest: &Bytes32, ticket: Self::Ticket) -> bool;
    fn cached(&self) -> usize;
}

pub struct Verified {
    cache: Cache<Shared>,
    keys: Vec<Key>,
}

impl Side for Verified {
    type Ticket = Ticket;
    type Listed = Digest;

    fn new(size: usize, keys: &[Bytes32]) -> Verified {
        let keys: Vec<Key> = keys.iter().map(|it| Key::from(*it)).collect();
        let mut cache = Cache::new(Key::from([0; 32]), size, u64::MAX).unwrap();
        drop(cache.update_primary_peers(&keys).unwrap());
        Verified { cache, keys }
    }

    fn take(&mut self, peer: usize, digest: &Bytes32, message: &Shared) {
        let (digest, message) = (Digest::new(*digest), message.clone());
        let taken = self.cache.take(&self.keys[peer], &digest, message.len(), message);
        black_box(taken.unwrap().outcome);
    }

    fn get(&self, digest: &Bytes32) -> Option<&Shared> {
        self.cache.get(&Digest::new(*digest))
    }

    fn list(&self, peer: usize) -> Vec<Digest> {
        self.cache.list(&self.keys[peer]).unwrap()
    }

    fn subscribe(&mut self, digest: &Bytes32) -> Ticket {
        match self.cache.subscribe(&Digest::new(*digest)) {
            Ok(Subscribed::Waiting(ticket)) => ticket,
            other => panic!("{other:?}"),
        }
    }

    fn cancel(&mut self, digest: &Bytes32, ticket: Ticket) -> bool {
        self.cache.cancel(&Digest::new(*digest), ticket)
    }

    fn cached(&self) -> usize {
        self.cache.len()
    }
}

/// A plain cache, its keys, and the ticket that is drawn next.
pub struct Keyed<C> {
    cache: C,
    keys: Vec<Bytes32>,
    next: u64,
}

macro_rules! plain_side {
    ($cache:ident, $size:ident, $keys:ident => $new:expr) => {
        impl Side for Keyed<$cache<Bytes32, Shared>> {
            type Ticket = u64;
            type Listed = Bytes32;

            fn new($size: usize, $keys: &[Bytes32]) -> Self {
                Keyed { cache: $new, keys: $keys.to_vec(), next: 0 }
            }

            fn take(&mut self, peer: usize, digest: &Bytes32, message: &Shared) {
                let (charge, message) = (message.len() as u64, message.clone());
                black_box(self.cache.take(&self.keys[peer], digest, charge, message));
            }

            fn get(&self, digest: &Bytes32) -> Option<&Shared> {
                self.cache.get(digest)
            }

            fn list(&self, peer: usize) -> Vec<Bytes32> {
                self.cache.list(&self.keys[peer])
            }

            fn subscribe(&mut self, digest: &Bytes32) -> u64 {
                self.next += 1;
                assert!(self.cache.subscribe(self.next, digest));
                self.next
            }

            fn cancel(&mut self, digest: &Bytes32, ticket: u64) -> bool {
                self.cache.cancel(digest, ticket)
            }

            fn cached(&self) -> usize {
                self.cache.cached()
            }
        }
    };
}

plain_side!(Plain, size, keys => {
    let mut cache = Plain::new(size, u64::MAX);
    cache.peers(keys);
    cache
});
plain_side!(Hashed, size, keys => {
    let mut cache = Hashed::new(size, u64::MAX);
    cache.peers(keys);
    cache
});
plain_side!(Expert, size, keys => Expert::new(size, u64::MAX, keys));
