//! The engine: a future that owns the cache and handles one event a turn.
//!
//! In each turn it looks, in this order, for a stop, dropped subscriptions, a new peer set, a request, and a payload of
//! the network: so a payload never overtakes a request, and waits while there are requests. Before one turn of 64 the
//! engine lets other tasks run, which changes no order.

use crate::deliveries::Feed;
use crate::id::{self, Hex};
use crate::inbox::{Inbox, Incoming, Request};
use crate::metrics::Counters;
use crate::waiting::{Responder, Waiting};
use crate::{
    Config, Digested, Error, Id, Mailbox, Message, Metrics, Provider, Receiver, RestoreError,
    Sender, Snapshot, Strategy,
};
use broadcast_node::{Cache, Digest, Held, Key, Outcome};
use bytes::Bytes;
use std::collections::HashMap;
use std::fmt;
use std::future::{Future, poll_fn};
use std::pin::{Pin, pin};
use std::sync::Arc;
use std::task::Poll;
use tracing::{debug, error, trace};

/// Why an engine ended.
#[derive(Clone, Copy, Debug, PartialEq, Eq)]
#[non_exhaustive]
pub enum End {
    /// It was stopped.
    Stopped,
    /// The provider has no more peer sets.
    PeersClosed,
    /// The receiver of the network failed.
    NetworkFailed,
    /// The last mailbox was dropped.
    MailboxesDropped,
}

/// Caches and broadcasts messages, and replies to requests.
pub struct Engine<P: Id, M: Message, D, T> {
    public_key: P,
    own: Key,
    priority: bool,
    codec_config: M::Config,
    peer_provider: D,
    strategy: T,
    inbox: Closing<P, M>,
    cache: Cache<Digested<M>>,
    waiting: Waiting<M>,
    feeds: Vec<Feed<M>>,
    metrics: Metrics,
}

/// How many turns pass until the engine lets other tasks run.
const BURST: u32 = 64;

/// What an engine handles in a turn.
enum Event<P, M: Message, E> {
    Stopped,
    Peers(Option<Vec<P>>),
    Incoming(Incoming<P, M>),
    Received(Result<(P, Bytes), E>),
}

impl<P: Id, M: Message, D: Provider<PublicKey = P>, T: Strategy> Engine<P, M, D, T> {
    /// Creates an engine over the verified cache, and its mailbox.
    ///
    /// # Errors
    ///
    /// There is no memory, or the library cannot be used.
    pub fn new(config: Config<P, M::Config, D, T>) -> Result<(Self, Mailbox<P, M>), Error> {
        let own = id::key(&config.public_key);
        let cache = Cache::new(own, config.deque_size, config.byte_budget)?;
        Ok(Engine::over(config, cache))
    }

    /// Creates an engine as [`Engine::new`] does, with the peer set and the lists of a snapshot, which another engine has
    /// made by [`Mailbox::snapshot`]. The first peer set of the provider keeps the lists of its peers.
    ///
    /// It goes by the messages: each has the digest that it says, and is charged the length of its encoding, whatever the
    /// snapshot says of it. A program that has stored their encodings decodes them first.
    ///
    /// # Errors
    ///
    /// Those of [`Engine::new`]. One that names what does not fit, if the lists are not those of an engine with this
    /// configuration: lists that are too long, a listed digest without a message, a message on no list, and repeats.
    pub fn restore(
        config: Config<P, M::Config, D, T>,
        snapshot: Snapshot<Digested<M>>,
    ) -> Result<(Self, Mailbox<P, M>), RestoreError> {
        let mut charges = HashMap::new();
        let mut messages = Vec::new();
        for (_, _, message) in snapshot.messages {
            let (digest, charge) = (message.name(), message.encode().len());
            charges.insert(digest, charge);
            messages.push((digest, charge, message));
        }
        let charged = |digest| (digest, charges.get(&digest).copied().unwrap_or(0));
        let lists = snapshot.lists.into_iter().map(|(key, list)| {
            let digests = list.into_iter().map(|(digest, _)| charged(digest));
            (key, digests.collect())
        });
        let own = id::key(&config.public_key);
        let snapshot = Snapshot::new(lists.collect(), messages);
        let cache = Cache::restore(own, config.deque_size, config.byte_budget, snapshot)?;
        Ok(Engine::over(config, cache))
    }

    fn over(
        config: Config<P, M::Config, D, T>,
        cache: Cache<Digested<M>>,
    ) -> (Self, Mailbox<P, M>) {
        let inbox = Inbox::new(config.mailbox_size.get());
        let mailbox = Mailbox::new(inbox.clone());
        let engine = Engine {
            own: id::key(&config.public_key),
            public_key: config.public_key,
            priority: config.priority,
            codec_config: config.codec_config,
            peer_provider: config.peer_provider,
            strategy: config.strategy,
            inbox: Closing(inbox),
            cache,
            waiting: Waiting::new(),
            feeds: Vec::new(),
            metrics: Metrics::default(),
        };
        (engine, mailbox)
    }

    /// Returns the counters.
    pub fn metrics(&self) -> Metrics {
        self.metrics.clone()
    }

    /// Runs the engine over a network, until `stop` is ready or something ends it. Any executor may poll the future. Its
    /// drop ends the engine, too.
    #[allow(
        clippy::manual_async_fn,
        reason = "the future is `Send`, which an `async fn` does not say"
    )]
    pub fn run(
        mut self,
        network: (impl Sender<PublicKey = P>, impl Receiver<PublicKey = P>),
        stop: impl Future<Output = ()> + Send,
    ) -> impl Future<Output = End> + Send {
        async move {
            debug!(cache = ?self.cache, key = %Hex(self.public_key.as_ref()), "starts");
            let end = self.serve(network, pin!(stop)).await;
            let given_up = self.inbox.0.close();
            debug!(?end, given_up, waiting = self.waiting.len(), "ended");
            end
        }
    }

    async fn serve(
        &mut self,
        (mut sender, mut receiver): (impl Sender<PublicKey = P>, impl Receiver<PublicKey = P>),
        mut stop: Pin<&mut (impl Future<Output = ()> + Send)>,
    ) -> End {
        if unless_stopped(self.peer_provider.subscribe(), stop.as_mut()).await.is_none() {
            return End::Stopped;
        }
        let mut turn = 0_u32;
        loop {
            turn = (turn + 1) % BURST;
            if turn == 0 {
                yield_now().await;
            }
            let result = match self.next(&mut receiver, stop.as_mut()).await {
                Event::Stopped => return End::Stopped,
                Event::Peers(None) => return End::PeersClosed,
                Event::Peers(Some(peers)) => self.set_peers(&peers),
                Event::Incoming(Incoming::Closed) => return End::MailboxesDropped,
                Event::Incoming(Incoming::Dropped) => Ok(()),
                Event::Incoming(Incoming::Request(request)) => self.answer(&mut sender, request),
                Event::Received(Ok((peer, bytes))) => {
                    match self.receive(&peer, bytes, stop.as_mut()).await {
                        Some(result) => result,
                        None => return End::Stopped,
                    }
                }
                Event::Received(Err(err)) => {
                    error!(?err, "receiver failed");
                    return End::NetworkFailed;
                }
            };
            if let Err(err) = result {
                error!(%err, "the cache failed");
            }
        }
    }

    /// Waits for the next event, and drops what nobody waits for any more. Each poll has the order of a turn.
    async fn next<R: Receiver<PublicKey = P>>(
        &mut self,
        receiver: &mut R,
        mut stop: Pin<&mut (impl Future<Output = ()> + Send)>,
    ) -> Event<P, M, R::Error> {
        let (inbox, counters) = (&self.inbox.0, self.metrics.counters());
        let (waiting, cache) = (&mut self.waiting, &mut self.cache);
        let mut peers = pin!(self.peer_provider.next());
        let (mut incoming, mut received) = (pin!(inbox.next()), pin!(receiver.recv()));
        poll_fn(|cx| {
            if stop.as_mut().poll(cx).is_ready() {
                return Poll::Ready(Event::Stopped);
            }
            for number in inbox.take_dropped() {
                if waiting.remove(cache, number) {
                    counters.subscribe.dropped.inc();
                }
            }
            counters.show_sizes(cache.counts());
            if let Poll::Ready(peers) = peers.as_mut().poll(cx) {
                return Poll::Ready(Event::Peers(peers));
            }
            if let Poll::Ready(incoming) = incoming.as_mut().poll(cx) {
                return Poll::Ready(Event::Incoming(incoming));
            }
            received.as_mut().poll(cx).map(Event::Received)
        })
        .await
    }

    fn counters(&self) -> &Counters {
        self.metrics.counters()
    }

    fn set_peers(&mut self, peers: &[P]) -> Result<(), Error> {
        let keys: Vec<_> = peers.iter().map(id::key).collect();
        let evicted = self.cache.update_primary_peers(&keys)?;
        debug!(peers = keys.len(), evicted = evicted.len(), "peer set");
        drop(evicted);
        self.counters().set_peers(peers);
        Ok(())
    }

    fn answer(
        &mut self,
        sender: &mut impl Sender<PublicKey = P>,
        request: Request<P, M>,
    ) -> Result<(), Error> {
        match request {
            Request::Broadcast(recipients, message) => {
                trace!("mailbox: broadcast");
                let bytes = message.encode();
                let own = self.own;
                self.take(&own, message, bytes.len())?;
                sender.send(recipients, bytes, self.priority);
            }
            Request::Subscribe(number, digest, responder) => {
                trace!("mailbox: subscribe");
                self.subscribe(number, M::name_of(&digest), responder);
            }
            Request::Get(digest, responder) => {
                trace!("mailbox: get");
                self.get(&M::name_of(&digest), responder);
            }
            Request::List(peer, responder) => {
                let _ = responder.send(self.list(&peer));
            }
            Request::Snapshot(responder) if responder.is_closed() => {}
            Request::Snapshot(responder) => {
                trace!("mailbox: snapshot");
                let _ = responder.send(self.cache.snapshot());
            }
            Request::Deliver(feed) => {
                self.feeds.retain(|it| !it.is_closed());
                self.feeds.push(feed);
            }
        }
        Ok(())
    }

    fn subscribe(&mut self, number: u64, digest: Digest, responder: Responder<M>) {
        if responder.is_closed() {
            self.counters().subscribe.dropped.inc();
        } else if let Some(message) = self.cache.get(&digest) {
            reply(self.counters(), responder, message.clone());
        } else {
            self.waiting.insert(&mut self.cache, number, digest, responder);
        }
    }

    fn get(&self, digest: &Digest, responder: tokio::sync::oneshot::Sender<Option<Digested<M>>>) {
        let message = self.cache.get(digest).cloned();
        let was_found = message.is_some();
        match (responder.send(message), was_found) {
            (Ok(()), true) => self.counters().get.success.inc(),
            (Ok(()), false) => self.counters().get.failure.inc(),
            (Err(_), _) => self.counters().get.dropped.inc(),
        }
    }

    fn list(&self, peer: &P) -> Result<Vec<Digested<M>>, Error> {
        let digests = self.cache.list(&id::key(peer))?;
        Ok(digests.iter().filter_map(|it| self.cache.get(it).cloned()).collect())
    }

    /// Handles a payload of a peer. Returns `None` if the engine was stopped while its digest was computed.
    async fn receive(
        &mut self,
        peer: &P,
        bytes: Bytes,
        stop: Pin<&mut (impl Future<Output = ()> + Send)>,
    ) -> Option<Result<(), Error>> {
        let len = bytes.len();
        let (message, digest) = match M::decode_digested(bytes, &self.codec_config) {
            Ok(decoded) => decoded,
            Err(err) => {
                debug!(?err, peer = %Hex(peer.as_ref()), "failed to decode message");
                self.counters().receive.invalid.inc();
                return Some(Ok(()));
            }
        };
        trace!(peer = %Hex(peer.as_ref()), "network");
        let key = id::key(peer);
        self.counters().count_peer(&key);
        let message = match digest {
            Some(digest) => Digested::precomputed(message, digest),
            None => unless_stopped(self.strategy.digest(message), stop).await?,
        };
        let taken = self.take(&key, message, len);
        Some(taken.map(|outcome| self.count_received(peer, outcome)))
    }

    fn count_received(&self, peer: &P, outcome: Outcome) {
        match outcome {
            Outcome::Inserted => self.counters().receive.success.inc(),
            outcome => {
                debug!(peer = %Hex(peer.as_ref()), ?outcome, "message not cached");
                self.counters().receive.dropped.inc();
            }
        }
    }

    /// Takes a message of `len` bytes under a key, and replies to all who wait for it.
    fn take(&mut self, key: &Key, message: Digested<M>, len: usize) -> Result<Outcome, Error> {
        let digest = message.name();
        let taken = self.cache.take(key, &digest, len, message)?;
        if !taken.served.is_empty() {
            for responder in self.waiting.serve(&digest) {
                reply(self.metrics.counters(), responder, Digested::clone(&taken.message));
            }
        }
        let outcome = taken.outcome;
        if let Held::Cached(message) = taken.message {
            self.feeds.retain(|it| it.add(message));
        }
        for (digest, _) in taken.evicted {
            trace!(%digest, "evicted");
        }
        Ok(outcome)
    }
}

fn reply<M: Message>(counters: &Counters, responder: Responder<M>, message: Digested<M>) {
    match responder.send(Ok(message)) {
        Ok(()) => counters.subscribe.success.inc(),
        Err(_) => counters.subscribe.dropped.inc(),
    }
}

/// Waits for a future. Returns `None` if the engine was stopped before it was ready.
async fn unless_stopped<T>(
    future: impl Future<Output = T> + Send,
    mut stop: Pin<&mut (impl Future<Output = ()> + Send)>,
) -> Option<T> {
    let mut future = pin!(future);
    poll_fn(|cx| match stop.as_mut().poll(cx) {
        Poll::Ready(()) => Poll::Ready(None),
        Poll::Pending => future.as_mut().poll(cx).map(Some),
    })
    .await
}

/// Lets other tasks run, on any executor.
async fn yield_now() {
    let mut has_yielded = false;
    poll_fn(|cx| {
        if std::mem::replace(&mut has_yielded, true) {
            return Poll::Ready(());
        }
        cx.waker().wake_by_ref();
        Poll::Pending
    })
    .await;
}

impl<P: Id, M: Message, D, T> fmt::Debug for Engine<P, M, D, T> {
    fn fmt(&self, f: &mut fmt::Formatter<'_>) -> fmt::Result {
        f.debug_struct("Engine")
            .field("public_key", &format_args!("{}", Hex(self.public_key.as_ref())))
            .field("cache", &self.cache)
            .finish_non_exhaustive()
    }
}

/// Closes an inbox when the engine is dropped, whether or not it was started, or its task has panicked.
struct Closing<P, M: Message>(Arc<Inbox<P, M>>);

impl<P, M: Message> Drop for Closing<P, M> {
    fn drop(&mut self) {
        self.0.close();
    }
}
