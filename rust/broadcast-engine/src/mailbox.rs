//! The mailbox of an engine.

use crate::deliveries::Deliveries;
use crate::id::Hex;
use crate::inbox::{Feedback, Inbox, Request};
use crate::{Digested, Error, Id, Message, Recipients, Snapshot};
use std::fmt;
use std::future::Future;
use std::pin::Pin;
use std::sync::Arc;
use std::task::{Context, Poll};
use tokio::sync::oneshot;

/// Why a request has no reply.
#[derive(Clone, Copy, Debug, PartialEq, Eq)]
#[non_exhaustive]
pub enum Canceled {
    /// The engine has ended.
    Ended,
    /// The cache failed.
    Failed(Error),
}

impl fmt::Display for Canceled {
    fn fmt(&self, f: &mut fmt::Formatter<'_>) -> fmt::Result {
        match self {
            Canceled::Ended => f.write_str("the engine has ended"),
            Canceled::Failed(error) => error.fmt(f),
        }
    }
}

impl std::error::Error for Canceled {}

/// Sends requests to an engine, without waiting. Clones send to the same engine, which ends when the last one is dropped.
pub struct Mailbox<P, M: Message> {
    inbox: Arc<Inbox<P, M>>,
}

impl<P, M: Message> Mailbox<P, M> {
    /// Creates the first mailbox of an inbox.
    pub(crate) const fn new(inbox: Arc<Inbox<P, M>>) -> Self {
        Mailbox { inbox }
    }
}

impl<P, M: Message> Clone for Mailbox<P, M> {
    fn clone(&self) -> Self {
        self.inbox.add_mailbox();
        Mailbox { inbox: self.inbox.clone() }
    }
}

impl<P, M: Message> Drop for Mailbox<P, M> {
    fn drop(&mut self) {
        self.inbox.remove_mailbox();
    }
}

impl<P: Id, M: Message> Mailbox<P, M> {
    /// Caches a message under the own key, if the peer set has that, and sends the message to `recipients`. If the cache
    /// finds no memory, the message is neither cached nor sent, and the engine logs an error.
    pub fn broadcast(
        &self,
        recipients: Recipients<P>,
        message: impl Into<Digested<M>>,
    ) -> Feedback {
        self.inbox.enqueue(Request::Broadcast(recipients, message.into()))
    }

    /// Subscribes to the message of a digest, which comes at once if it is cached, else as soon as any peer
    /// sends it. Dropping the subscription cancels it.
    pub fn subscribe(&self, digest: M::Digest) -> Subscription<P, M> {
        let number = self.inbox.draw_number();
        let (responder, receiver) = oneshot::channel();
        let _ = self.inbox.enqueue(Request::Subscribe(number, digest.clone(), responder));
        Subscription { inbox: self.inbox.clone(), digest, number, receiver, is_done: false }
    }

    /// Returns the cached message of a digest, or `None` if there is none or the engine has ended. The call queues the
    /// request, as all calls of a mailbox do; the future waits for the reply.
    pub fn get(
        &self,
        digest: M::Digest,
    ) -> impl Future<Output = Option<Digested<M>>> + Send + use<P, M> {
        let (responder, receiver) = oneshot::channel();
        let _ = self.inbox.enqueue(Request::Get(digest, responder));
        async move { receiver.await.unwrap_or_default() }
    }

    /// Returns the messages on the list of a peer, newest first. (`commonware_broadcast` has no such call; it serves
    /// callers that send a peer what it missed.)
    ///
    /// # Errors
    ///
    /// [`Canceled`], if the engine has ended or the cache fails.
    pub fn list(
        &self,
        peer: P,
    ) -> impl Future<Output = Result<Vec<Digested<M>>, Canceled>> + Send + use<P, M> {
        let (responder, receiver) = oneshot::channel();
        let _ = self.inbox.enqueue(Request::List(peer, responder));
        async move { receiver.await.map_err(|_| Canceled::Ended)?.map_err(Canceled::Failed) }
    }

    /// Returns all lists and their messages, which the reply shares. [`Engine::restore`](crate::Engine::restore) makes an
    /// engine of it. The engine does nothing else meanwhile, and needs time for each listed digest.
    ///
    /// # Errors
    ///
    /// [`Canceled`], if the engine has ended or the cache fails.
    pub fn snapshot(
        &self,
    ) -> impl Future<Output = Result<Snapshot<Digested<M>>, Canceled>> + Send + use<P, M> {
        let (responder, receiver) = oneshot::channel();
        let _ = self.inbox.enqueue(Request::Snapshot(responder));
        async move { receiver.await.map_err(|_| Canceled::Ended)?.map_err(Canceled::Failed) }
    }

    /// Returns a stream of the messages that are cached from now on. Messages that come while `capacity` of them wait to
    /// be read are left out of the stream, and counted. A capacity of 0 is one of 1, and the greatest is that of a channel
    /// of tokio, `usize::MAX / 8`.
    pub fn deliveries(&self, capacity: usize) -> Deliveries<P, M> {
        let (deliveries, feed) = Deliveries::new(capacity, self.clone());
        let _ = self.inbox.enqueue(Request::Deliver(feed));
        deliveries
    }
}

impl<P, M: Message> fmt::Debug for Mailbox<P, M> {
    fn fmt(&self, f: &mut fmt::Formatter<'_>) -> fmt::Result {
        f.debug_struct("Mailbox").finish_non_exhaustive()
    }
}

/// A future of a message. Dropping it cancels the subscription, at the cost of a search.
#[must_use = "dropping it cancels the subscription"]
pub struct Subscription<P, M: Message> {
    inbox: Arc<Inbox<P, M>>,
    digest: M::Digest,
    number: u64,
    receiver: oneshot::Receiver<Result<Digested<M>, Error>>,
    is_done: bool,
}

impl<P, M: Message> Subscription<P, M> {
    /// Returns the digest.
    pub const fn digest(&self) -> &M::Digest {
        &self.digest
    }

    /// Returns the message if it has come, without waiting, and `None` if it has not or was returned before.
    ///
    /// # Errors
    ///
    /// [`Canceled`], as the future.
    pub fn try_recv(&mut self) -> Result<Option<Digested<M>>, Canceled> {
        match self.receiver.try_recv() {
            Err(oneshot::error::TryRecvError::Empty) => Ok(None),
            Err(oneshot::error::TryRecvError::Closed) if self.is_done => Ok(None),
            received => {
                self.is_done = true;
                received.map_err(|_| Canceled::Ended)?.map_err(Canceled::Failed).map(Some)
            }
        }
    }
}

impl<P, M: Message> Unpin for Subscription<P, M> {}

impl<P, M: Message> Future for Subscription<P, M> {
    type Output = Result<Digested<M>, Canceled>;

    fn poll(mut self: Pin<&mut Self>, cx: &mut Context<'_>) -> Poll<Self::Output> {
        let result = Pin::new(&mut self.receiver).poll(cx);
        self.is_done |= result.is_ready();
        result.map(|it| it.map_err(|_| Canceled::Ended)?.map_err(Canceled::Failed))
    }
}

impl<P, M: Message> Drop for Subscription<P, M> {
    fn drop(&mut self) {
        if !self.is_done {
            // The channel closes first, so an engine that found it open is notified afterwards.
            self.receiver.close();
            self.inbox.note_dropped(self.number);
        }
    }
}

impl<P, M: Message> fmt::Debug for Subscription<P, M> {
    fn fmt(&self, f: &mut fmt::Formatter<'_>) -> fmt::Result {
        write!(f, "Subscription({})", Hex(self.digest.as_ref()))
    }
}
