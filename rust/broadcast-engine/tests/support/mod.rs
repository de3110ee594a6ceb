//! A test message, a tracker of peer sets, and a network in memory.

#![allow(dead_code, reason = "each test file uses some of it")]

use broadcast_engine::{
    ByStatus, Config, Digested, Engine, Fixed, Handle, Mailbox, Message, Metrics, Provider,
    Receiver, Recipients, Sender, Sequential,
};
use bytes::{Buf, Bytes};
use rand::{Rng, SeedableRng, rngs::StdRng};
use sha2::{Digest as _, Sha256};
use std::collections::BTreeMap;
use std::sync::{Arc, Mutex};
use std::time::Duration;
use tokio::sync::mpsc::{UnboundedReceiver, UnboundedSender, unbounded_channel};
use tokio::time::sleep;

pub type Key = [u8; 32];
pub type TestEngine = Engine<Key, TestMessage, PeerSets, Sequential>;
pub type TestConfig<T = Sequential> = Config<Key, usize, PeerSets, T>;
pub type TestMailbox = Mailbox<Key, TestMessage>;

pub const CACHE_SIZE: usize = 10;
/// How long a message takes over the network.
pub const NETWORK_SPEED: Duration = Duration::from_millis(100);

/// A message whose digest is the SHA-256 of its content alone.
#[derive(Clone, Debug, PartialEq, Eq)]
pub struct TestMessage {
    pub commitment: Bytes,
    pub content: Bytes,
}

impl TestMessage {
    pub fn shared(content: impl Into<Vec<u8>>) -> TestMessage {
        let content = Bytes::from(content.into());
        TestMessage { commitment: content.clone(), content }
    }

    pub fn digested(content: impl Into<Vec<u8>>) -> Digested<TestMessage> {
        TestMessage::shared(content).into()
    }
}

fn read_list(bytes: &mut Bytes, max: usize) -> Result<Bytes, &'static str> {
    if bytes.len() < 4 {
        return Err("no length");
    }
    let len = bytes.get_u32() as usize;
    if len > max {
        return Err("too long");
    }
    if bytes.len() < len {
        return Err("cut");
    }
    Ok(bytes.split_to(len))
}

impl Message for TestMessage {
    type Digest = [u8; 32];
    type Config = usize;
    type Error = &'static str;

    fn encode(&self) -> Bytes {
        let list = |it: &Bytes| [&(it.len() as u32).to_be_bytes(), it.as_ref()].concat();
        [list(&self.commitment), list(&self.content)].concat().into()
    }

    fn decode(mut bytes: Bytes, max: &usize) -> Result<TestMessage, &'static str> {
        let (commitment, content) = (read_list(&mut bytes, *max)?, read_list(&mut bytes, *max)?);
        if bytes.is_empty() { Ok(TestMessage { commitment, content }) } else { Err("too much") }
    }

    fn digest(&self) -> [u8; 32] {
        Sha256::digest(&self.content).into()
    }
}

/// Tracks the newest `window` peer sets, and reports the primary peers of all of them.
#[derive(Clone)]
pub struct Tracker(Arc<Mutex<Tracked>>);

/// The peer sets of a tracker, as an engine reads them.
pub struct PeerSets(UnboundedReceiver<Vec<Key>>);

struct Tracked {
    window: usize,
    sets: BTreeMap<u64, Vec<Key>>,
    subscribers: Vec<UnboundedSender<Vec<Key>>>,
}

impl Tracker {
    pub fn new(window: usize) -> Tracker {
        let (sets, subscribers) = (BTreeMap::new(), Vec::new());
        Tracker(Arc::new(Mutex::new(Tracked { window, sets, subscribers })))
    }

    pub fn track(&self, id: u64, primary: &[Key]) {
        let mut tracked = self.0.lock().unwrap();
        tracked.sets.insert(id, primary.to_vec());
        while tracked.sets.len() > tracked.window {
            tracked.sets.pop_first();
        }
        let all = tracked.sets.values().flatten().copied().collect::<Vec<_>>();
        tracked.subscribers.retain(|it| it.send(all.clone()).is_ok());
    }

    /// Closes the channels of all subscribers.
    pub fn close(&self) {
        self.0.lock().unwrap().subscribers.clear();
    }
}

impl Tracker {
    pub fn sets(&self) -> PeerSets {
        let (sender, receiver) = unbounded_channel();
        let mut tracked = self.0.lock().unwrap();
        if !tracked.sets.is_empty() {
            let _ = sender.send(tracked.sets.values().flatten().copied().collect());
        }
        tracked.subscribers.push(sender);
        PeerSets(receiver)
    }
}

impl Provider for PeerSets {
    type PublicKey = Key;

    async fn next(&mut self) -> Option<Vec<Key>> {
        self.0.recv().await
    }
}

/// A network in memory, in which a message takes `NETWORK_SPEED`, and is lost with the probability `loss`. The next
/// `lose` sends are lost for all.
#[derive(Clone)]
pub struct Network(Arc<Mutex<Links>>);

struct Links {
    loss: f64,
    lose: u64,
    random: StdRng,
    nodes: BTreeMap<Key, UnboundedSender<(Key, Bytes)>>,
}

pub struct NetSender(Key, Network);
pub struct NetReceiver(UnboundedReceiver<(Key, Bytes)>);

impl Network {
    pub fn new(loss: f64) -> Network {
        let (random, nodes) = (StdRng::seed_from_u64(7), BTreeMap::new());
        Network(Arc::new(Mutex::new(Links { loss, lose: 0, random, nodes })))
    }

    pub fn join(&self, key: Key) -> (NetSender, NetReceiver) {
        let (sender, receiver) = unbounded_channel();
        self.0.lock().unwrap().nodes.insert(key, sender);
        (NetSender(key, self.clone()), NetReceiver(receiver))
    }

    /// Hands a payload to a node, as from a peer.
    pub fn hand(&self, to: &Key, from: Key, payload: Bytes) {
        self.0.lock().unwrap().nodes[to].send((from, payload)).unwrap();
    }

    /// Loses the next sends.
    pub fn lose(&self, sends: u64) {
        self.0.lock().unwrap().lose = sends;
    }

    /// Lets the receiver of a node fail.
    pub fn leave(&self, key: &Key) {
        self.0.lock().unwrap().nodes.remove(key);
    }
}

impl Sender for NetSender {
    type PublicKey = Key;

    fn send(&mut self, recipients: Recipients<Key>, message: Bytes, _priority: bool) {
        let mut links = self.1.0.lock().unwrap();
        if links.lose > 0 {
            links.lose -= 1;
            return;
        }
        let keys = match recipients {
            Recipients::All => links.nodes.keys().copied().collect(),
            Recipients::Some(keys) => keys,
            Recipients::One(key) => vec![key],
        };
        for key in keys.into_iter().filter(|it| *it != self.0) {
            let loss = links.loss;
            if links.random.gen_bool(loss) {
                continue;
            }
            if let Some(to) = links.nodes.get(&key).cloned() {
                let packet = (self.0, message.clone());
                tokio::spawn(async move {
                    sleep(NETWORK_SPEED).await;
                    let _ = to.send(packet);
                });
            }
        }
    }
}

impl Receiver for NetReceiver {
    type PublicKey = Key;
    type Error = &'static str;

    async fn recv(&mut self) -> Result<(Key, Bytes), &'static str> {
        self.0.recv().await.ok_or("the network is gone")
    }
}

pub fn config(public_key: Key, tracker: &Tracker) -> TestConfig {
    config_with(public_key, tracker, Sequential)
}

pub fn config_with<T>(public_key: Key, tracker: &Tracker, strategy: T) -> TestConfig<T> {
    Config::new(public_key, tracker.sets(), 1 << 16)
        .deque_size(CACHE_SIZE)
        .byte_budget(1 << 20)
        .strategy(strategy)
}

/// The configuration of an engine whose peers are itself, `[1; 32]`, and `[2; 32]`.
pub fn fixed() -> Config<Key, usize, Fixed<Key>, Sequential> {
    Config::new([1; 32], Fixed::new([[1; 32], [2; 32]]), 1 << 16).deque_size(1_000)
}

/// A sender that sends nothing.
pub struct Nowhere;

impl Sender for Nowhere {
    type PublicKey = Key;

    fn send(&mut self, _: Recipients<Key>, _: Bytes, _: bool) {}
}

/// Nodes, each with an engine over one network and one tracker.
pub struct Nodes {
    pub keys: Vec<Key>,
    pub network: Network,
    pub tracker: Tracker,
    pub mailboxes: Vec<TestMailbox>,
    pub handles: Vec<Handle>,
    pub metrics: Vec<Metrics>,
}

impl Nodes {
    /// Starts nodes that are all primary.
    pub async fn start(count: u8, loss: f64) -> Nodes {
        let nodes = Nodes::untracked(count, loss, 1).await;
        nodes.tracker.track(0, &nodes.keys);
        settle().await;
        nodes
    }

    /// Starts nodes before any peer set is tracked.
    pub async fn untracked(count: u8, loss: f64, window: usize) -> Nodes {
        let keys: Vec<Key> = (1..=count).map(|it| [it; 32]).collect();
        let (network, tracker) = (Network::new(loss), Tracker::new(window));
        let (mut mailboxes, mut handles, mut metrics) = (vec![], vec![], vec![]);
        for key in &keys {
            let (engine, mailbox) = TestEngine::new(config(*key, &tracker)).unwrap();
            metrics.push(engine.metrics());
            handles.push(engine.start(network.join(*key)));
            mailboxes.push(mailbox);
        }
        settle().await;
        Nodes { keys, network, tracker, mailboxes, handles, metrics }
    }

    pub fn broadcast(&self, node: usize, message: &Digested<TestMessage>) {
        assert!(self.mailboxes[node].broadcast(Recipients::All, message.clone()).accepted());
    }

    pub async fn has(&self, node: usize, message: &Digested<TestMessage>) -> bool {
        let found = self.mailboxes[node].get(message.digest()).await;
        assert!(found.is_none() || found.as_ref() == Some(message));
        found.is_some()
    }
}

/// Waits until all messages have arrived. The clock is paused, and goes on when no task has anything to do.
pub async fn settle() {
    sleep(2 * NETWORK_SPEED).await;
}

/// Returns a counter, as of `receive.invalid`.
pub fn count(metrics: &Metrics, name: &str) -> u64 {
    let stats = metrics.snapshot();
    let of = |counts: ByStatus, status: &str| match status {
        "success" => counts.success,
        "failure" => counts.failure,
        "dropped" => counts.dropped,
        "invalid" => counts.invalid,
        _ => panic!("there is no {name}"),
    };
    match name.split_once('.') {
        None if name == "waiters" => stats.waiters,
        Some(("receive", status)) => of(stats.receive, status),
        Some(("subscribe", status)) => of(stats.subscribe, status),
        Some(("get", status)) => of(stats.get, status),
        _ => panic!("there is no {name}"),
    }
}

/// Returns how many payloads of a primary peer are counted.
pub fn payloads_of(metrics: &Metrics, peer: &Key) -> Option<u64> {
    let key = broadcast_node::Digest::new(*peer).to_string();
    metrics.snapshot().peers.get(&key).copied()
}
