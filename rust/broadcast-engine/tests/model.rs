//! Random events go through an engine and through a model of one over a plain cache: both answer the same, list the same and
//! count the same.

#[path = "../../broadcast-node/benches/cost/plain.rs"]
mod plain;
mod support;

use broadcast_engine::{Blocking, Digested, Engine, Message, Recipients, Sender, Stats};
use plain::Plain;
use rand::{Rng, SeedableRng, rngs::StdRng};
use std::collections::{BTreeMap, BTreeSet, VecDeque};
use std::time::{Duration, Instant, SystemTime, UNIX_EPOCH};
use support::*;
use tokio::time::sleep;

const OWN: Key = [1; 32];
const DEQUE_SIZE: usize = 5;
const BYTE_BUDGET: u64 = 1_000;

/// An engine without tasks and channels.
struct Model {
    cache: Plain<Key, Digested<TestMessage>>,
    /// The digests that tickets wait for.
    waiting: BTreeMap<u64, Key>,
    stats: Stats,
}

impl Model {
    fn new() -> Model {
        let cache = Plain::new(DEQUE_SIZE, BYTE_BUDGET);
        Model { cache, waiting: BTreeMap::new(), stats: Stats::default() }
    }

    fn set_peers(&mut self, set: &[Key]) {
        self.cache.peers(set);
        let mut old = std::mem::take(&mut self.stats.peers);
        for name in set.iter().map(hex) {
            let count = old.remove(&name).unwrap_or(0);
            self.stats.peers.insert(name, count);
        }
        self.stats.other_peers += old.values().sum::<u64>();
    }

    /// Returns whether the digest is new on the list.
    fn take(&mut self, peer: &Key, message: &Digested<TestMessage>) -> bool {
        let len = message.encode().len() as u64;
        let (listed, served) = self.cache.take(peer, &message.digest(), len, message.clone());
        self.stats.subscribe.success += served.len() as u64;
        self.waiting.retain(|ticket, _| !served.contains(ticket));
        listed == Some(true)
    }

    fn receive(&mut self, peer: &Key, message: &Digested<TestMessage>) {
        *self.stats.peers.get_mut(&hex(peer)).unwrap_or(&mut self.stats.other_peers) += 1;
        match self.take(peer, message) {
            true => self.stats.receive.success += 1,
            false => self.stats.receive.dropped += 1,
        }
    }

    fn subscribe(&mut self, ticket: u64, digest: &Key) {
        match self.cache.subscribe(ticket, digest) {
            true => drop(self.waiting.insert(ticket, *digest)),
            false => self.stats.subscribe.success += 1,
        }
    }

    fn drop_ticket(&mut self, ticket: u64) {
        if let Some(digest) = self.waiting.remove(&ticket) {
            assert!(self.cache.cancel(&digest, ticket));
            self.stats.subscribe.dropped += 1;
        }
    }

    fn get(&mut self, digest: &Key) -> Option<Digested<TestMessage>> {
        let message = self.cache.get(digest).cloned();
        match message {
            Some(_) => self.stats.get.success += 1,
            None => self.stats.get.failure += 1,
        }
        message
    }

    fn list(&self, peer: &Key) -> Vec<Digested<TestMessage>> {
        self.cache.list(peer).iter().filter_map(|it| self.cache.get(it).cloned()).collect()
    }

    fn stats(&mut self) -> &Stats {
        self.stats.cached = self.cache.cached() as u64;
        self.stats.waiters = self.waiting.values().collect::<BTreeSet<_>>().len() as u64;
        &self.stats
    }
}

fn hex(key: &Key) -> String {
    broadcast_node::Digest::new(*key).to_string()
}

/// Plays 400 random events.
async fn play(seed: u64) {
    let (network, tracker, mut model) = (Network::new(0.0), Tracker::new(1), Model::new());
    let mut config = config(OWN, &tracker);
    (config.deque_size, config.byte_budget) = (DEQUE_SIZE, BYTE_BUDGET);
    let (engine, mailbox) = TestEngine::new(config).unwrap();
    let metrics = engine.metrics();
    let mut peers: Vec<_> = (2..5).map(|it| network.join([it; 32])).collect();
    let _handle = engine.start(network.join(OWN));
    let mut random = StdRng::seed_from_u64(seed);
    let mut waiting = VecDeque::new();
    for at in 0..400 {
        let content = random.gen_range(0..30_u8);
        let message = TestMessage::digested(vec![content; usize::from(content) * 20]);
        let digest = message.digest();
        match random.gen_range(0..11) {
            0 => {
                let set: Vec<Key> =
                    (1..5).map(|it| [it; 32]).filter(|_| random.gen_bool(0.8)).collect();
                tracker.track(0, &set);
                model.set_peers(&set);
            }
            1 => {
                model.take(&OWN, &message);
                let _ = mailbox.broadcast(Recipients::All, message);
            }
            2 | 3 => {
                waiting.push_back((at, mailbox.subscribe(digest)));
                model.subscribe(at, &digest);
            }
            4 if !waiting.is_empty() => {
                let dropped = waiting.remove(random.gen_range(0..waiting.len()));
                dropped.into_iter().for_each(|(ticket, _)| model.drop_ticket(ticket));
            }
            5 => assert_eq!(mailbox.get(digest).await, model.get(&digest), "seed {seed}"),
            6 => {
                let peer = [content % 5; 32];
                assert_eq!(mailbox.list(peer).await, Ok(model.list(&peer)), "seed {seed}");
            }
            7 => {
                let bytes = message.encode();
                let cut = bytes.slice(..random.gen_range(0..=bytes.len()));
                match cut.len() < bytes.len() {
                    true => model.stats.receive.invalid += 1,
                    false => model.receive(&[2; 32], &message),
                }
                peers[0].0.send(Recipients::One(OWN), cut, false);
            }
            peer => {
                let peer = peer % 3;
                model.receive(&[peer as u8 + 2; 32], &message);
                peers[peer].0.send(Recipients::One(OWN), message.encode(), false);
            }
        }
        sleep(2 * NETWORK_SPEED).await;
        assert_eq!(&metrics.snapshot(), model.stats(), "seed {seed}, event {at}");
    }
}

/// The seeds of random events: 50, and more for as many seconds as `BROADCAST_FUZZ_SECONDS` says, from another place each
/// day.
fn seeds() -> impl Iterator<Item = u64> {
    let seconds = std::env::var("BROADCAST_FUZZ_SECONDS").ok().and_then(|it| it.parse().ok());
    let end = Instant::now() + Duration::from_secs(seconds.unwrap_or(0));
    let since = SystemTime::now().duration_since(UNIX_EPOCH).unwrap_or_default();
    (0..50).chain((((since.as_secs() / 86_400) << 32)..).take_while(move |_| Instant::now() < end))
}

#[tokio::test(start_paused = true)]
async fn an_engine_answers_as_the_model_does() {
    for seed in seeds() {
        play(seed).await;
    }
}

#[tokio::test]
async fn both_strategies_digest_the_same() {
    let (network, tracker) = (Network::new(0.0), Tracker::new(1));
    tracker.track(0, &[[1; 32], [2; 32]]);
    let (engine, mailbox) = Engine::new(config_with([1; 32], &tracker, Blocking)).unwrap();
    let _handle = engine.start(network.join([1; 32]));
    let mut peer = network.join([2; 32]).0;
    for content in 0..20_u8 {
        let message = TestMessage::digested(vec![content; 10_000]);
        let subscription = mailbox.subscribe(message.digest());
        peer.send(Recipients::One([1; 32]), message.encode(), false);
        assert_eq!(subscription.await, Ok(message));
    }
}
