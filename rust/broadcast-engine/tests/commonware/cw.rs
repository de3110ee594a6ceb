//! Stand-ins of commonware's traits, as `commonware-broadcast` and its tests use them.

use bytes::{Buf, Bytes, BytesMut};
use std::collections::BTreeSet;
use std::fmt::Debug;
use std::future::Future;
use std::hash::Hash;
use std::sync::Arc;
use tokio::sync::mpsc::UnboundedReceiver;

pub trait PublicKey: Clone + Ord + Hash + Debug + AsRef<[u8]> + Send + Sync + 'static {}

pub trait Digestible {
    type Digest: Clone;
    fn digest(&self) -> Self::Digest;
}

/// A message and its digest.
#[derive(Debug)]
pub struct Digested<M: Digestible> {
    message: Arc<M>,
    digest: M::Digest,
}

impl<M: Digestible> Digested<M> {
    pub fn precomputed(message: impl Into<Arc<M>>, digest: M::Digest) -> Self {
        Digested { message: message.into(), digest }
    }

    pub fn digest(&self) -> M::Digest {
        self.digest.clone()
    }

    pub fn inner(&self) -> &M {
        &self.message
    }

    pub fn inner_shared(&self) -> Arc<M> {
        self.message.clone()
    }
}

impl<M: Digestible> Clone for Digested<M> {
    fn clone(&self) -> Self {
        Digested { message: self.message.clone(), digest: self.digest.clone() }
    }
}

impl<M: Digestible + Encode> Encode for Digested<M> {
    fn encode(&self) -> BytesMut {
        self.message.encode()
    }
}

pub trait Encode {
    fn encode(&self) -> BytesMut;
}

pub trait Decode: Sized {
    type Cfg: Clone + Send + Sync + 'static;
    fn decode_cfg(bytes: impl Buf, config: &Self::Cfg) -> Result<Self, &'static str>;
}

pub trait Codec: Encode + Decode {}

impl<T: Encode + Decode> Codec for T {}

/// Bytes of the network.
#[derive(Debug, Clone)]
pub struct IoBuf(Bytes);

impl From<Vec<u8>> for IoBuf {
    fn from(bytes: Vec<u8>) -> IoBuf {
        IoBuf(bytes.into())
    }
}

impl Buf for IoBuf {
    fn remaining(&self) -> usize {
        self.0.remaining()
    }

    fn chunk(&self) -> &[u8] {
        self.0.chunk()
    }

    fn advance(&mut self, n: usize) {
        self.0.advance(n);
    }
}

#[derive(Clone, Debug)]
pub enum Recipients<P> {
    All,
    Some(Vec<P>),
    One(P),
}

#[derive(Clone, Copy, Debug, PartialEq, Eq)]
pub enum Feedback {
    Ok,
    Backoff,
    Closed,
}

impl Feedback {
    pub fn accepted(self) -> bool {
        self != Feedback::Closed
    }
}

pub trait Broadcaster: Clone + Send + 'static {
    type Recipients;
    type Message: Encode + Clone + Send + 'static;
    fn broadcast(&self, recipients: Self::Recipients, message: Self::Message) -> Feedback;
}

pub trait Sender: Send + 'static {
    type PublicKey: PublicKey;
    fn send(
        &mut self,
        recipients: Recipients<Self::PublicKey>,
        message: impl Into<IoBuf> + Send,
        priority: bool,
    ) -> Vec<Self::PublicKey>;
}

pub trait Receiver: Send + 'static {
    type PublicKey: PublicKey;
    type Error;
    fn recv(
        &mut self,
    ) -> impl Future<Output = Result<(Self::PublicKey, IoBuf), Self::Error>> + Send;
}

/// The peers of one set, or of several.
#[derive(Clone, Debug, Default)]
pub struct Peers<P> {
    pub primary: BTreeSet<P>,
    pub secondary: BTreeSet<P>,
}

/// The newest peer set, and all that are tracked.
#[derive(Clone, Debug)]
#[allow(dead_code, reason = "an engine that goes by the newest set alone evicts too early")]
pub struct Update<P> {
    pub latest: Peers<P>,
    pub all: Peers<P>,
}

pub type Updates<P> = UnboundedReceiver<Update<P>>;

pub trait Provider: Send + 'static {
    type PublicKey: PublicKey;
    fn subscribe(&mut self) -> impl Future<Output = Updates<Self::PublicKey>> + Send;
}
