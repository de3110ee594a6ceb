//! What calls of a cache return.

use crate::slots::Slot;
use crate::{Digest, Outcome, Ticket};
use std::iter::Rev;
use std::ops::Deref;
use std::{fmt, slice};

/// The result of taking a message.
#[derive(Debug)]
#[must_use = "the tickets in `served` wait for a reply"]
#[non_exhaustive]
pub struct Taken<'a, M> {
    /// What happened to the list of the key.
    pub outcome: Outcome,
    /// The tickets that waited for the digest, in the order of their subscribes.
    pub served: &'a [Ticket],
    /// The message, which is the reply to them.
    pub message: Held<'a, M>,
    /// The messages that the take evicted.
    pub evicted: Evicted<'a, M>,
}

/// A message that was taken. It derefs to the message.
#[derive(Debug)]
#[non_exhaustive]
pub enum Held<'a, M> {
    /// The cache keeps it.
    Cached(&'a M),
    /// The cache does not keep it: the digest is on no list, or the cache had a message of the digest before.
    Returned(M),
}

impl<M> Deref for Held<'_, M> {
    type Target = M;

    fn deref(&self) -> &M {
        match self {
            Held::Cached(message) => message,
            Held::Returned(message) => message,
        }
    }
}

/// The messages that a call evicted, with their digests, in no promised order. Those that the caller does not
/// read are dropped with it.
pub struct Evicted<'a, M> {
    /// The numbers of their places, the newest first.
    numbers: Rev<slice::Iter<'a, u64>>,
    /// The places in front of that of the message which came with the call, and those behind it.
    before: &'a mut [Option<Slot<M>>],
    after: &'a mut [Option<Slot<M>>],
}

impl<'a, M> Evicted<'a, M> {
    pub(crate) fn new(
        numbers: &'a [u64],
        before: &'a mut [Option<Slot<M>>],
        after: &'a mut [Option<Slot<M>>],
    ) -> Evicted<'a, M> {
        Evicted { numbers: numbers.iter().rev(), before, after }
    }
}

impl<M> Iterator for Evicted<'_, M> {
    type Item = (Digest, M);

    fn next(&mut self) -> Option<(Digest, M)> {
        let number = *self.numbers.next()? as usize;
        let place = match number.checked_sub(self.before.len() + 1) {
            None => self.before.get_mut(number),
            Some(number) => self.after.get_mut(number),
        };
        let slot = place?.take()?;
        Some((slot.digest, slot.message))
    }

    fn size_hint(&self) -> (usize, Option<usize>) {
        self.numbers.size_hint()
    }
}

impl<M> ExactSizeIterator for Evicted<'_, M> {}

impl<M> Drop for Evicted<'_, M> {
    #[inline]
    fn drop(&mut self) {
        if self.len() > 0 {
            self.drop_all();
        }
    }
}

impl<M> Evicted<'_, M> {
    /// Drops all messages, also if the drop of one panics.
    fn drop_all(&mut self) {
        struct Rest<'a, 'b, M>(&'a mut Evicted<'b, M>);
        impl<M> Drop for Rest<'_, '_, M> {
            fn drop(&mut self) {
                while self.0.next().is_some() {}
            }
        }
        let rest = Rest(self);
        while rest.0.next().is_some() {}
    }
}

impl<M> fmt::Debug for Evicted<'_, M> {
    fn fmt(&self, f: &mut fmt::Formatter<'_>) -> fmt::Result {
        f.debug_tuple("Evicted").field(&self.len()).finish()
    }
}

/// The result of a subscribe.
#[derive(Clone, Copy, Debug, PartialEq, Eq, Hash)]
#[must_use = "a ticket waits until its message comes or it is cancelled"]
#[non_exhaustive]
pub enum Subscribed<'a, M: ?Sized> {
    /// The message is cached, and nobody waits.
    Cached(&'a M),
    /// The ticket waits, until the message is taken or the ticket is cancelled.
    Waiting(Ticket),
}
