//! Streams of the messages that are cached anew.

use crate::{Digested, Mailbox, Message};
use futures_core::Stream;
use std::fmt;
use std::pin::Pin;
use std::sync::Arc;
use std::sync::atomic::{AtomicU64, Ordering::Relaxed};
use std::task::{Context, Poll};
use tokio::sync::Semaphore;
use tokio::sync::mpsc::{self, error::TrySendError};

/// The engine's end of a stream.
pub struct Feed<M: Message> {
    messages: mpsc::Sender<Digested<M>>,
    missed: Arc<AtomicU64>,
}

impl<M: Message> Feed<M> {
    pub fn is_closed(&self) -> bool {
        self.messages.is_closed()
    }

    /// Adds a message. Returns whether anybody reads the stream.
    pub fn add(&self, message: &Digested<M>) -> bool {
        match self.messages.try_send(message.clone()) {
            Ok(()) => true,
            Err(TrySendError::Full(_)) => {
                self.missed.fetch_add(1, Relaxed);
                true
            }
            Err(TrySendError::Closed(_)) => false,
        }
    }
}

/// A stream of messages, each when it is cached while no list had its digest. It ends with the engine, which it keeps
/// alive as a mailbox does.
pub struct Deliveries<P, M: Message> {
    messages: mpsc::Receiver<Digested<M>>,
    missed: Arc<AtomicU64>,
    _mailbox: Mailbox<P, M>,
}

impl<P, M: Message> Deliveries<P, M> {
    pub(crate) fn new(capacity: usize, mailbox: Mailbox<P, M>) -> (Deliveries<P, M>, Feed<M>) {
        let (sender, messages) = mpsc::channel(capacity.clamp(1, Semaphore::MAX_PERMITS));
        let missed = Arc::new(AtomicU64::new(0));
        let feed = Feed { messages: sender, missed: missed.clone() };
        (Deliveries { messages, missed, _mailbox: mailbox }, feed)
    }

    /// Returns how many messages the stream has left out, because as many as its capacity waited to be read.
    pub fn missed(&self) -> u64 {
        self.missed.load(Relaxed)
    }

    /// Waits for the next message, as the stream does.
    pub async fn next(&mut self) -> Option<Digested<M>> {
        self.messages.recv().await
    }
}

impl<P, M: Message> Unpin for Deliveries<P, M> {}

impl<P, M: Message> Stream for Deliveries<P, M> {
    type Item = Digested<M>;

    fn poll_next(mut self: Pin<&mut Self>, cx: &mut Context<'_>) -> Poll<Option<Digested<M>>> {
        self.messages.poll_recv(cx)
    }
}

impl<P, M: Message> fmt::Debug for Deliveries<P, M> {
    fn fmt(&self, f: &mut fmt::Formatter<'_>) -> fmt::Result {
        f.debug_struct("Deliveries").field("missed", &self.missed()).finish_non_exhaustive()
    }
}
