//! The subscriptions that wait. The cache knows one ticket of each awaited digest.

use crate::{Digested, Error, Message};
use broadcast_node::{Cache, Digest, Subscribed, Ticket};
use std::collections::hash_map::Entry;
use std::collections::{BTreeMap, HashMap};
use tokio::sync::oneshot;

/// Where the reply to a subscription is sent.
pub type Responder<M> = oneshot::Sender<Result<Digested<M>, Error>>;

/// The subscriptions to a digest by their numbers, and the ticket that the cache drew for all of them.
struct Awaited<M: Message> {
    ticket: Option<Ticket>,
    responders: BTreeMap<u64, Responder<M>>,
}

/// The waiting subscriptions, by digest and by number.
pub struct Waiting<M: Message> {
    digests: HashMap<Digest, Awaited<M>>,
    numbers: HashMap<u64, Digest>,
}

impl<M: Message> Waiting<M> {
    pub fn new() -> Self {
        Waiting { digests: HashMap::new(), numbers: HashMap::new() }
    }

    /// Inserts a subscription to a digest that is not cached. With the first one a ticket waits in the cache.
    pub fn insert(
        &mut self,
        cache: &mut Cache<Digested<M>>,
        number: u64,
        digest: Digest,
        responder: Responder<M>,
    ) {
        let awaited = match self.digests.entry(digest) {
            Entry::Occupied(entry) => entry.into_mut(),
            Entry::Vacant(entry) => match cache.subscribe(&digest) {
                Ok(subscribed) => {
                    let ticket = match subscribed {
                        Subscribed::Waiting(ticket) => Some(ticket),
                        _ => None,
                    };
                    entry.insert(Awaited { ticket, responders: BTreeMap::new() })
                }
                Err(error) => {
                    let _ = responder.send(Err(error));
                    return;
                }
            },
        };
        awaited.responders.insert(number, responder);
        self.numbers.insert(number, digest);
    }

    /// Removes all subscriptions to the digest. Returns them in the order of their numbers.
    pub fn serve(&mut self, digest: &Digest) -> impl Iterator<Item = Responder<M>> + use<M> {
        let served = self.digests.remove(digest).map(|it| it.responders).unwrap_or_default();
        for number in served.keys() {
            self.numbers.remove(number);
        }
        served.into_values()
    }

    /// Removes one subscription, and with the last of a digest the ticket in the cache. Returns whether the
    /// subscription waited.
    pub fn remove(&mut self, cache: &mut Cache<Digested<M>>, number: u64) -> bool {
        let Some(digest) = self.numbers.remove(&number) else { return false };
        if let Entry::Occupied(mut entry) = self.digests.entry(digest) {
            entry.get_mut().responders.remove(&number);
            if entry.get().responders.is_empty()
                && let Some(ticket) = entry.remove().ticket
            {
                cache.cancel(&digest, ticket);
            }
        }
        true
    }

    /// Returns how many subscriptions wait.
    pub fn len(&self) -> usize {
        self.numbers.len()
    }
}
