//! What calls of a node return.

use super::wire::{self, Invalid};
use crate::{Digest, Evicted, Held, Key, Outcome, Ticket};

/// The peers that a message is for. There will be no other variants, so a network may match all.
#[derive(Clone, Debug, Default, PartialEq, Eq, Hash)]
#[cfg_attr(feature = "serde", derive(serde::Serialize, serde::Deserialize))]
pub enum Recipients<P = Key> {
    /// Every peer.
    #[default]
    All,
    /// These peers.
    Some(Vec<P>),
    /// One peer.
    One(P),
}

/// The result of a broadcast.
#[derive(Debug)]
#[must_use = "the payload is to be sent, and the tickets in `served` wait for a reply"]
#[non_exhaustive]
pub struct Broadcast<'a, B> {
    /// The peers that the payload is sent to.
    pub recipients: Recipients,
    /// The digest of the message.
    pub digest: Digest,
    /// What happened to the own list.
    pub outcome: Outcome,
    /// The tickets that are replied to with the message.
    pub served: &'a [Ticket],
    /// The payloads of the evicted messages.
    pub evicted: Evicted<'a, B>,
    pub(super) payload: Held<'a, B>,
}

impl<B> Broadcast<'_, B> {
    /// Returns the bytes to send, which [`Node::payload`](crate::Node::payload) of another node reads. A clone of `Bytes` or
    /// `Arc<[u8]>` shares them with the cache.
    pub fn payload(&self) -> &B {
        &self.payload
    }
}

/// The result of a payload.
#[derive(Debug)]
#[must_use = "the tickets in `served` of a message wait for a reply"]
#[non_exhaustive]
pub enum Received<'a, B> {
    /// The message was taken.
    Taken(Message<'a, B>),
    /// The message can't be on a list, and as nobody waits for any, it was neither digested nor taken. It is
    /// counted as it would be.
    Ignored(Outcome),
    /// The payload does not decode.
    Invalid(Invalid),
}

/// A message that was taken from a payload.
#[derive(Debug)]
#[must_use = "the tickets in `served` wait for a reply"]
#[non_exhaustive]
pub struct Message<'a, B> {
    /// The digest.
    pub digest: Digest,
    /// What happened to the list of the peer.
    pub outcome: Outcome,
    /// The tickets that are replied to with the message.
    pub served: &'a [Ticket],
    /// The payloads of the evicted messages.
    pub evicted: Evicted<'a, B>,
    pub(super) payload: Held<'a, B>,
}

impl<B: AsRef<[u8]>> Message<'_, B> {
    /// Returns the bytes of the message.
    pub fn bytes(&self) -> &[u8] {
        wire::message_of((*self.payload).as_ref())
    }

    /// Returns the payload that the message came in, which can be sent on as it is.
    pub fn payload(&self) -> &B {
        &self.payload
    }
}
