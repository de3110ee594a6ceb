//! The adapter. `crate::cw` has the names of commonware.

use crate::cw;
use broadcast_engine as engine;
use bytes::{Buf, Bytes};
use std::fmt::{self, Debug};
use std::future::Future;
use std::num::NonZeroUsize;
use std::pin::Pin;
use std::sync::Arc;
use std::task::{Context, Poll};

pub use cw::Broadcaster;
pub use engine::{Blocking, Canceled, End, Error, Handle, Metrics, Sequential};

/// Configuration of an [`Engine`]: the fields of `commonware_broadcast` and one more, `byte_budget`. Those of
/// `broadcast_engine::Config` say what each is.
#[derive(Clone)]
#[allow(missing_docs, reason = "they are those of `broadcast_engine::Config`")]
pub struct Config<P, C, D, T> {
    pub public_key: P,
    pub mailbox_size: NonZeroUsize,
    pub deque_size: usize,
    /// The most bytes that are cached for each peer.
    pub byte_budget: u64,
    pub priority: bool,
    pub codec_config: C,
    pub peer_provider: D,
    pub strategy: T,
}

/// A message that `commonware_broadcast` takes too. Each type with these traits is one.
pub trait Message:
    cw::Digestible<Digest: engine::Id> + cw::Codec<Cfg: Send + Sync + 'static> + Send + Sync + 'static
{
}

impl<M> Message for M where
    M: cw::Digestible<Digest: engine::Id>
        + cw::Codec<Cfg: Send + Sync + 'static>
        + Send
        + Sync
        + 'static
{
}

/// A message of commonware, as the engine has it.
struct Wire<M>(Arc<M>);

impl<M: Message> engine::Message for Wire<M> {
    type Digest = M::Digest;
    type Config = M::Cfg;
    type Error = String;

    fn encode(&self) -> Bytes {
        self.0.encode().into()
    }

    fn decode(bytes: Bytes, config: &M::Cfg) -> Result<Self, String> {
        match M::decode_cfg(bytes, config) {
            Ok(message) => Ok(Wire(Arc::new(message))),
            Err(err) => Err(format!("{err:?}")),
        }
    }

    fn digest(&self) -> M::Digest {
        self.0.digest()
    }

    /// All digests of a type of commonware have one length, so those of 32 bytes need no hash.
    fn name_of(digest: &M::Digest) -> engine::Digest {
        let bytes = digest.as_ref();
        engine::Digest::try_from(bytes).unwrap_or_else(|_| engine::Digest::sha256(bytes))
    }
}

/// Returns the message as commonware has it. Both share it.
fn digested<M: Message>(message: engine::Digested<Wire<M>>) -> cw::Digested<M> {
    cw::Digested::precomputed(message.0.clone(), message.digest())
}

/// A provider of commonware: the primary peers of all tracked sets.
struct PeerSets<D: cw::Provider> {
    provider: D,
    /// What the provider replied with. It may be an actor, to which each subscription is a message.
    updates: Option<cw::Updates<D::PublicKey>>,
}

impl<D: cw::Provider<PublicKey: engine::Id>> engine::Provider for PeerSets<D> {
    type PublicKey = D::PublicKey;

    async fn subscribe(&mut self) {
        self.updates = Some(self.provider.subscribe().await);
    }

    async fn next(&mut self) -> Option<Vec<D::PublicKey>> {
        let update = self.updates.as_mut()?.recv().await?;
        Some(update.all.primary.into_iter().collect())
    }
}

/// A sender of commonware.
struct Outgoing<S>(S);

impl<S: cw::Sender<PublicKey: engine::Id>> engine::Sender for Outgoing<S> {
    type PublicKey = S::PublicKey;

    fn send(&mut self, to: engine::Recipients<S::PublicKey>, message: Bytes, priority: bool) {
        let to = match to {
            engine::Recipients::All => cw::Recipients::All,
            engine::Recipients::Some(keys) => cw::Recipients::Some(keys),
            engine::Recipients::One(key) => cw::Recipients::One(key),
        };
        let _ = self.0.send(to, cw::IoBuf::from(Vec::from(message)), priority);
    }
}

/// A receiver of commonware.
struct Arriving<R>(R);

impl<R: cw::Receiver<PublicKey: engine::Id, Error: Debug + Send>> engine::Receiver for Arriving<R> {
    type PublicKey = R::PublicKey;
    type Error = R::Error;

    async fn recv(&mut self) -> Result<(R::PublicKey, Bytes), R::Error> {
        let (peer, mut bytes) = self.0.recv().await?;
        let len = bytes.remaining();
        Ok((peer, bytes.copy_to_bytes(len)))
    }
}

/// The engine of `commonware_broadcast::buffered`.
pub struct Engine<P: engine::Id, M: Message, D: cw::Provider, T>(
    engine::Engine<P, Wire<M>, PeerSets<D>, T>,
);

impl<P, M, D, T> Engine<P, M, D, T>
where
    P: cw::PublicKey + engine::Id,
    M: Message,
    D: cw::Provider<PublicKey = P>,
    T: engine::Strategy,
{
    /// Creates an engine and its mailbox.
    ///
    /// # Errors
    ///
    /// Those of `broadcast_engine::Engine::new`.
    pub fn new(config: Config<P, M::Cfg, D, T>) -> Result<(Self, Mailbox<P, M>), Error> {
        let peer_sets = PeerSets { provider: config.peer_provider, updates: None };
        let config = engine::Config::new(config.public_key, peer_sets, config.codec_config)
            .mailbox_size(config.mailbox_size)
            .deque_size(config.deque_size)
            .byte_budget(config.byte_budget)
            .priority(config.priority)
            .strategy(config.strategy);
        let (engine, mailbox) = engine::Engine::new(config)?;
        Ok((Engine(engine), Mailbox(mailbox)))
    }

    /// Returns the counters.
    pub fn metrics(&self) -> Metrics {
        self.0.metrics()
    }

    /// Starts the engine in a task of tokio.
    pub fn start(
        self,
        (sender, receiver): (
            impl cw::Sender<PublicKey = P>,
            impl cw::Receiver<PublicKey = P, Error: Debug + Send>,
        ),
    ) -> Handle {
        self.0.start((Outgoing(sender), Arriving(receiver)))
    }

    /// Runs the engine until `stop` is ready, in any runtime.
    pub fn run(
        self,
        (sender, receiver): (
            impl cw::Sender<PublicKey = P>,
            impl cw::Receiver<PublicKey = P, Error: Debug + Send>,
        ),
        stop: impl Future<Output = ()> + Send,
    ) -> impl Future<Output = End> + Send {
        self.0.run((Outgoing(sender), Arriving(receiver)), stop)
    }
}

impl<P: engine::Id, M: Message, D: cw::Provider, T> Debug for Engine<P, M, D, T> {
    fn fmt(&self, f: &mut fmt::Formatter<'_>) -> fmt::Result {
        self.0.fmt(f)
    }
}

/// The mailbox of an engine.
pub struct Mailbox<P, M: Message>(engine::Mailbox<P, Wire<M>>);

impl<P, M: Message> Clone for Mailbox<P, M> {
    fn clone(&self) -> Self {
        Mailbox(self.0.clone())
    }
}

impl<P: engine::Id, M: Message> Mailbox<P, M> {
    /// Subscribes to the message of a digest.
    pub fn subscribe(&self, digest: M::Digest) -> Subscription<P, M> {
        Subscription(self.0.subscribe(digest))
    }

    /// Returns the cached message of a digest.
    pub async fn get(&self, digest: M::Digest) -> Option<cw::Digested<M>> {
        self.0.get(digest).await.map(digested)
    }
}

impl<P, M: Message> Debug for Mailbox<P, M> {
    fn fmt(&self, f: &mut fmt::Formatter<'_>) -> fmt::Result {
        self.0.fmt(f)
    }
}

/// A future of a message. Dropping it cancels the subscription.
pub struct Subscription<P, M: Message>(engine::Subscription<P, Wire<M>>);

impl<P, M: Message> Future for Subscription<P, M> {
    type Output = Result<cw::Digested<M>, Canceled>;

    fn poll(mut self: Pin<&mut Self>, cx: &mut Context<'_>) -> Poll<Self::Output> {
        Pin::new(&mut self.0).poll(cx).map(|it| it.map(digested))
    }
}

impl<P, M: Message> Debug for Subscription<P, M> {
    fn fmt(&self, f: &mut fmt::Formatter<'_>) -> fmt::Result {
        self.0.fmt(f)
    }
}

impl<P: engine::Id, M: Message> Broadcaster for Mailbox<P, M> {
    type Recipients = cw::Recipients<P>;
    type Message = cw::Digested<M>;

    fn broadcast(&self, to: cw::Recipients<P>, message: cw::Digested<M>) -> cw::Feedback {
        let to = match to {
            cw::Recipients::All => engine::Recipients::All,
            cw::Recipients::Some(keys) => engine::Recipients::Some(keys),
            cw::Recipients::One(key) => engine::Recipients::One(key),
        };
        let wire = Wire(message.inner_shared());
        match self.0.broadcast(to, engine::Digested::precomputed(wire, message.digest())) {
            engine::Feedback::Ok => cw::Feedback::Ok,
            engine::Feedback::Backoff => cw::Feedback::Backoff,
            _ => cw::Feedback::Closed,
        }
    }
}
