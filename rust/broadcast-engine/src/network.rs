//! The program brings peer sets and a network to an engine.
//!
//! A network owes an engine three things. It delivers each payload as one frame: whole, or not at all. It names as the
//! sender of a payload only a key that the sender has shown to own. And its queues are bounded: a full one drops
//! payloads, or lets the network wait, but never the engine.
//!
//! The repository's `rust/examples/zeromq` does this over ZeroMQ, with CURVE keys as identities. On more than one machine
//! there is also commonware's authenticated network, which `broadcast-commonware` puts behind these traits.

use crate::Id;
use bytes::Bytes;
use std::fmt::Debug;
use std::future::{Future, pending, ready};
use tokio::sync::mpsc::{self, UnboundedReceiver};

pub use broadcast_node::Recipients;

/// Provides the primary peers.
pub trait Provider: Send + 'static {
    /// The key of a peer.
    type PublicKey: Id;

    /// Subscribes to the peer sets. The engine awaits this once, before its first event; only a stop or the end of the
    /// engine drops the future. The default is ready at once.
    fn subscribe(&mut self) -> impl Future<Output = ()> + Send {
        ready(())
    }

    /// Waits for the next set of primary peers, of all tracked peer sets together. The first one comes at once if it
    /// is known. `None` ends the engine. Dropping the future must not lose a set.
    fn next(&mut self) -> impl Future<Output = Option<Vec<Self::PublicKey>>> + Send;
}

/// Primary peers that never change.
#[derive(Clone, Debug)]
pub struct Fixed<P>(Option<Vec<P>>);

impl<P> Fixed<P> {
    /// Creates a provider of these peers.
    pub fn new(peers: impl Into<Vec<P>>) -> Fixed<P> {
        Fixed(Some(peers.into()))
    }
}

impl<P: Id> Provider for Fixed<P> {
    type PublicKey = P;

    async fn next(&mut self) -> Option<Vec<P>> {
        match self.0.take() {
            Some(peers) => Some(peers),
            None => pending().await,
        }
    }
}

/// A channel of peer sets, which ends the engine when it closes.
impl<P: Id> Provider for UnboundedReceiver<Vec<P>> {
    type PublicKey = P;

    async fn next(&mut self) -> Option<Vec<P>> {
        self.recv().await
    }
}

/// Sends messages.
pub trait Sender: Send + 'static {
    /// The key of a peer.
    type PublicKey: Id;

    /// Queues a message. It must not block, since the engine does nothing else meanwhile: where the queue is full, it
    /// drops the message. The engine sends none again.
    fn send(&mut self, recipients: Recipients<Self::PublicKey>, message: Bytes, priority: bool);
}

/// Receives messages.
pub trait Receiver: Send + 'static {
    /// The key of a peer.
    type PublicKey: Id;
    /// Why the network failed.
    type Error: Debug + Send;

    /// Waits for the next message and its sender, who must be known beyond doubt. Dropping the future must not
    /// lose a message. After an error the engine ends.
    fn recv(
        &mut self,
    ) -> impl Future<Output = Result<(Self::PublicKey, Bytes), Self::Error>> + Send;
}

/// The network is gone.
#[derive(Clone, Copy, Debug, PartialEq, Eq)]
pub struct Disconnected;

impl std::fmt::Display for Disconnected {
    fn fmt(&self, f: &mut std::fmt::Formatter<'_>) -> std::fmt::Result {
        f.write_str("the network is gone")
    }
}

impl std::error::Error for Disconnected {}

/// A channel of payloads and their senders, which ends the engine when it closes.
impl<P: Id> Receiver for mpsc::Receiver<(P, Bytes)> {
    type PublicKey = P;
    type Error = Disconnected;

    async fn recv(&mut self) -> Result<(P, Bytes), Disconnected> {
        mpsc::Receiver::recv(self).await.ok_or(Disconnected)
    }
}
