//! Nodes over the adapter, a network and an oracle.

use crate::adapter::{self, Config, Handle, Metrics, Sequential};
use crate::cw::{self, Broadcaster, Digestible, IoBuf, Recipients};
use bytes::{Buf, BufMut, BytesMut};
use rand::{Rng, SeedableRng, rngs::StdRng};
use std::collections::{BTreeMap, BTreeSet};
use std::num::NonZeroUsize;
use std::ops::Deref;
use std::sync::atomic::{AtomicUsize, Ordering};
use std::sync::{Arc, Mutex};
use std::time::Duration;
use tokio::sync::mpsc::{UnboundedReceiver, UnboundedSender, unbounded_channel};
use tokio::sync::oneshot;
use tokio::time::{Instant, sleep, sleep_until, timeout};

pub type Digested = cw::Digested<Text>;
pub type Engine = adapter::Engine<PublicKey, Text, Oracle, Sequential>;
pub type Mailbox = adapter::Mailbox<PublicKey, Text>;

/// The most messages that a node lists of a peer.
pub const LISTED: usize = 10;
/// How long a payload is on its way.
const LATENCY: Duration = Duration::from_millis(100);
/// How long a message that is cached may take to come.
pub const A_MOMENT: Duration = Duration::from_millis(10);

#[derive(Clone, Copy, Debug, PartialEq, Eq, PartialOrd, Ord, Hash)]
pub struct PublicKey([u8; 33]);

impl AsRef<[u8]> for PublicKey {
    fn as_ref(&self) -> &[u8] {
        &self.0
    }
}

impl cw::PublicKey for PublicKey {}

/// A message: its length in four bytes, and then its letters.
#[derive(Clone, Debug, PartialEq, Eq)]
pub struct Text(Vec<u8>);

impl Digestible for Text {
    type Digest = [u8; 32];

    fn digest(&self) -> [u8; 32] {
        *broadcast_node::Digest::sha256(&self.0).as_bytes()
    }
}

impl cw::Encode for Text {
    fn encode(&self) -> BytesMut {
        let mut bytes = BytesMut::new();
        bytes.put_u32(self.0.len() as u32);
        bytes.put_slice(&self.0);
        bytes
    }
}

impl cw::Decode for Text {
    type Cfg = usize;

    fn decode_cfg(mut bytes: impl Buf, max: &usize) -> Result<Text, &'static str> {
        if bytes.remaining() < 4 {
            return Err("no length");
        }
        let len = bytes.get_u32() as usize;
        if len > *max {
            return Err("too long");
        }
        if len != bytes.remaining() {
            return Err("another length");
        }
        Ok(Text(bytes.copy_to_bytes(len).into()))
    }
}

/// Returns a message.
pub fn text(letters: impl Into<String>) -> Digested {
    let message = Text(letters.into().into_bytes());
    let digest = message.digest();
    Digested::precomputed(message, digest)
}

enum Request {
    Track(u64, cw::Peers<PublicKey>),
    Subscribe(oneshot::Sender<cw::Updates<PublicKey>>),
}

/// Tracks the newest peer sets in a task of its own, which is sent requests over a channel.
#[derive(Clone)]
pub struct Oracle {
    requests: UnboundedSender<Request>,
    subscribed: Arc<AtomicUsize>,
}

impl Oracle {
    /// Creates an oracle that tracks `window` sets, and the future that has to be run for it to reply.
    pub fn new(window: usize) -> (Oracle, impl Future<Output = ()> + Send) {
        let (requests, received) = unbounded_channel();
        (Oracle { requests, subscribed: Arc::default() }, serve(window, received))
    }

    /// Tracks a set of primary peers.
    pub fn track(&self, id: u64, primary: &[PublicKey]) {
        self.track_with(id, primary, &[]);
    }

    /// Tracks a set of primary and secondary peers.
    pub fn track_with(&self, id: u64, primary: &[PublicKey], secondary: &[PublicKey]) {
        let [primary, secondary] = [primary, secondary].map(|it| it.iter().copied().collect());
        let tracked = Request::Track(id, cw::Peers { primary, secondary });
        assert!(self.requests.send(tracked).is_ok(), "the oracle has ended");
    }

    /// Returns how many subscriptions were asked for.
    pub fn subscribed(&self) -> usize {
        self.subscribed.load(Ordering::Relaxed)
    }
}

async fn serve(window: usize, mut requests: UnboundedReceiver<Request>) {
    let mut sets = BTreeMap::<u64, cw::Peers<PublicKey>>::new();
    let mut subscribers = Vec::<UnboundedSender<_>>::new();
    while let Some(request) = requests.recv().await {
        match request {
            Request::Track(id, peers) => {
                sets.insert(id, peers);
                while sets.len() > window {
                    sets.pop_first();
                }
                let update = update(&sets);
                subscribers.retain(|it| it.send(update.clone().unwrap()).is_ok());
            }
            Request::Subscribe(reply) => {
                let (subscriber, updates) = unbounded_channel();
                if let Some(update) = update(&sets) {
                    let _ = subscriber.send(update);
                }
                subscribers.push(subscriber);
                let _ = reply.send(updates);
            }
        }
    }
}

fn update(sets: &BTreeMap<u64, cw::Peers<PublicKey>>) -> Option<cw::Update<PublicKey>> {
    let (_, latest) = sets.last_key_value()?;
    let all = |of: fn(&cw::Peers<PublicKey>) -> &BTreeSet<PublicKey>| {
        sets.values().flat_map(of).copied().collect()
    };
    let all = cw::Peers { primary: all(|it| &it.primary), secondary: all(|it| &it.secondary) };
    Some(cw::Update { latest: latest.clone(), all })
}

impl cw::Provider for Oracle {
    type PublicKey = PublicKey;

    async fn subscribe(&mut self) -> cw::Updates<PublicKey> {
        self.subscribed.fetch_add(1, Ordering::Relaxed);
        let (reply, replied) = oneshot::channel();
        assert!(self.requests.send(Request::Subscribe(reply)).is_ok(), "the oracle has ended");
        replied.await.unwrap()
    }
}

type Packet = (PublicKey, IoBuf);

/// A network of links between all peers. Each loses a payload with the same probability.
#[derive(Clone)]
pub struct Network(Arc<Mutex<Links>>);

struct Links {
    loss: f64,
    random: StdRng,
    to: BTreeMap<PublicKey, UnboundedSender<(Instant, Packet)>>,
}

/// The ends of a peer.
pub struct Out(PublicKey, Network);
pub struct In(UnboundedReceiver<Packet>);

impl Network {
    fn new(seed: u64, loss: f64) -> Network {
        let random = StdRng::seed_from_u64(seed);
        Network(Arc::new(Mutex::new(Links { loss, random, to: BTreeMap::new() })))
    }

    /// Returns the ends of a peer.
    pub fn join(&self, peer: PublicKey) -> (Out, In) {
        let (sender, mut sent) = unbounded_channel::<(Instant, Packet)>();
        let (arriving, arrived) = unbounded_channel();
        self.0.lock().unwrap().to.insert(peer, sender);
        tokio::spawn(async move {
            while let Some((at, packet)) = unless_closed(&arriving, sent.recv()).await {
                sleep_until(at).await;
                let _ = arriving.send(packet);
            }
        });
        (Out(peer, self.clone()), In(arrived))
    }

    /// Returns how many peers have their ends.
    pub fn joined(&self) -> usize {
        self.0.lock().unwrap().to.values().filter(|it| !it.is_closed()).count()
    }
}

async fn unless_closed<T>(
    to: &UnboundedSender<Packet>,
    next: impl Future<Output = Option<T>>,
) -> Option<T> {
    tokio::select! {
        () = to.closed() => None,
        it = next => it,
    }
}

impl cw::Sender for Out {
    type PublicKey = PublicKey;

    fn send(
        &mut self,
        to: Recipients<PublicKey>,
        message: impl Into<IoBuf> + Send,
        _priority: bool,
    ) -> Vec<PublicKey> {
        let (message, mut links) = (message.into(), self.1.0.lock().unwrap());
        let mut peers = match to {
            Recipients::All => links.to.keys().copied().collect(),
            Recipients::Some(peers) => peers,
            Recipients::One(peer) => vec![peer],
        };
        peers.retain(|it| *it != self.0 && links.to.contains_key(it));
        for peer in &peers {
            let loss = links.loss;
            if !links.random.gen_bool(loss) {
                let _ = links.to[peer].send((Instant::now() + LATENCY, (self.0, message.clone())));
            }
        }
        peers
    }
}

impl cw::Receiver for In {
    type PublicKey = PublicKey;
    type Error = &'static str;

    async fn recv(&mut self) -> Result<Packet, &'static str> {
        self.0.recv().await.ok_or("the network is gone")
    }
}

/// The keys of some peers, their network and their oracle.
pub struct World {
    pub keys: Vec<PublicKey>,
    pub network: Network,
    pub oracle: Oracle,
}

impl World {
    /// Creates a world without losses, whose oracle tracks `window` sets.
    pub fn new(peers: u8, window: usize) -> World {
        World::lossy(peers, window, 0, 0.0)
    }

    /// Creates a world whose network loses payloads.
    pub fn lossy(peers: u8, window: usize, seed: u64, loss: f64) -> World {
        let (oracle, serves) = Oracle::new(window);
        tokio::spawn(serves);
        let keys = (1..=peers).map(|it| PublicKey([it; 33])).collect();
        World { keys, network: Network::new(seed, loss), oracle }
    }

    /// Creates an engine of a peer.
    pub fn engine(&self, peer: usize) -> (Engine, Mailbox) {
        let config = Config {
            public_key: self.keys[peer],
            mailbox_size: NonZeroUsize::new(1_024).unwrap(),
            deque_size: LISTED,
            byte_budget: u64::MAX,
            priority: false,
            codec_config: 1_000,
            peer_provider: self.oracle.clone(),
            strategy: Sequential,
        };
        Engine::new(config).unwrap()
    }

    /// Starts a node for each peer.
    pub async fn start(&self) -> Vec<Node> {
        let nodes = (0..self.keys.len()).map(|it| self.start_one(it)).collect();
        sleep(A_MOMENT).await;
        nodes
    }

    /// Starts the node of a peer.
    pub fn start_one(&self, peer: usize) -> Node {
        let (engine, mailbox) = self.engine(peer);
        let metrics = engine.metrics();
        Node { mailbox, metrics, handle: engine.start(self.network.join(self.keys[peer])) }
    }

    /// Tracks a set, and waits until nodes have applied it.
    pub async fn track(&self, id: u64, primary: &[PublicKey]) {
        self.oracle.track(id, primary);
        sleep(A_MOMENT).await;
    }
}

/// Starts nodes that are primary to each other.
pub async fn nodes(peers: u8) -> Vec<Node> {
    let world = World::new(peers, 1);
    world.oracle.track(0, &world.keys);
    world.start().await
}

/// A node that runs.
pub struct Node {
    pub mailbox: Mailbox,
    pub metrics: Metrics,
    pub handle: Handle,
}

impl Deref for Node {
    type Target = Mailbox;

    fn deref(&self) -> &Mailbox {
        &self.mailbox
    }
}

impl Node {
    /// Broadcasts a message to all.
    pub fn send(&self, message: &Digested) {
        assert!(self.broadcast(Recipients::All, message.clone()).accepted());
    }

    /// Broadcasts as many new messages as a list has room for.
    pub async fn fill(&self, letters: &str) {
        (0..LISTED).for_each(|it| self.send(&text(format!("{letters} {it}"))));
        arrive().await;
    }

    /// Returns whether `get` finds a message.
    pub async fn has(&self, message: &Digested) -> bool {
        let found = self.get(message.digest()).await;
        assert!(found.as_ref().is_none_or(|it| it.inner() == message.inner()));
        found.is_some()
    }

    /// Returns whether a subscription gets a message at once.
    pub async fn is_served(&self, message: &Digested) -> bool {
        match timeout(A_MOMENT, self.subscribe(message.digest())).await {
            Ok(served) => served.unwrap().inner() == message.inner(),
            Err(_) => false,
        }
    }
}

/// Runs a test of its own number of worlds, each over a clock of its own.
pub fn run<T>(test: impl Future<Output = T>) -> T {
    let mut runtime = tokio::runtime::Builder::new_current_thread();
    runtime.enable_time().start_paused(true).build().unwrap().block_on(test)
}

/// Waits until all payloads have arrived. The clock is paused, and goes on when no task has anything to do.
pub async fn arrive() {
    sleep(2 * LATENCY).await;
}
