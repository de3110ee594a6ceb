//! Messages a second and latencies through an engine, the best of some turns: `cargo bench --bench engine`, or
//! `cargo bench --bench engine -- 100` for messages of so many bytes.

use broadcast_engine::{
    Config, Digested, Engine, Fixed, Mailbox, Message, Recipients, Sender, Sequential,
};
use bytes::Bytes;
use sha2::{Digest, Sha256};
use std::sync::{Arc, OnceLock};
use std::time::{Duration, Instant};
use tokio::sync::mpsc;

type Key = [u8; 32];

const PEERS: u8 = 16;
const DEQUE: usize = 100;
const BUDGET: u64 = 64 << 20;
const ROUNDS: usize = 7;

struct Blob(Bytes);

impl Message for Blob {
    type Digest = Key;
    type Config = usize;
    type Error = &'static str;

    fn encode(&self) -> Bytes {
        self.0.clone()
    }

    fn decode(bytes: Bytes, max: &usize) -> Result<Blob, &'static str> {
        if bytes.len() > *max { Err("too long") } else { Ok(Blob(bytes)) }
    }

    fn digest(&self) -> Key {
        Sha256::digest(&self.0).into()
    }
}

struct Nowhere;

impl Sender for Nowhere {
    type PublicKey = Key;

    fn send(&mut self, _: Recipients<Key>, message: Bytes, _: bool) {
        std::hint::black_box(message);
    }
}

struct Run {
    mailbox: Mailbox<Key, Blob>,
    network: mpsc::Sender<(Key, Bytes)>,
}

fn config() -> Config<Key, usize, Fixed<Key>, Sequential> {
    let peers: Vec<Key> = (0..PEERS).map(|it| [it; 32]).collect();
    Config::new([0; 32], Fixed::new(peers), 1 << 20).deque_size(DEQUE).byte_budget(BUDGET)
}

fn start() -> Run {
    let (engine, mailbox) = Engine::new(config()).unwrap();
    let (network, receiver) = mpsc::channel(1_024);
    drop(engine.start((Nowhere, receiver)));
    Run { mailbox, network }
}

fn blob(number: u64, len: usize) -> Bytes {
    let mut bytes = vec![7; len];
    bytes[..8].copy_from_slice(&number.to_be_bytes());
    bytes.into()
}

/// Payloads a second, of which none was there before.
async fn received(run: &Run, blobs: &[Bytes]) -> f64 {
    let last: Key = Sha256::digest(blobs.last().unwrap()).into();
    let done = run.mailbox.subscribe(last);
    let begin = Instant::now();
    for (number, blob) in blobs.iter().enumerate() {
        run.network.send(([number as u8 % PEERS; 32], blob.clone())).await.unwrap();
    }
    assert!(done.await.is_ok());
    blobs.len() as f64 / begin.elapsed().as_secs_f64()
}

fn percentiles(mut times: Vec<Duration>) -> (f64, f64) {
    times.sort();
    let at = |part: f64| times[(times.len() as f64 * part) as usize].as_nanos() as f64 / 1e3;
    (at(0.5), at(0.99))
}

/// From a payload's sending to the answer of a subscription, and a get of what is cached, in microseconds.
async fn latencies(run: &Run, blobs: &[Bytes]) -> [(f64, f64); 2] {
    let (mut arrivals, mut gets) = (Vec::new(), Vec::new());
    for (number, blob) in blobs.iter().take(20_000).enumerate() {
        let digest: Key = Sha256::digest(blob).into();
        let waits = run.mailbox.subscribe(digest);
        tokio::task::yield_now().await;
        let begin = Instant::now();
        run.network.send(([number as u8 % PEERS; 32], blob.clone())).await.unwrap();
        assert!(waits.await.is_ok());
        arrivals.push(begin.elapsed());
        let begin = Instant::now();
        assert!(run.mailbox.get(digest).await.is_some());
        gets.push(begin.elapsed());
    }
    [percentiles(arrivals), percentiles(gets)]
}

/// Sends on, as one more request, whatever is broadcast.
struct Flood(Arc<OnceLock<Mailbox<Key, Blob>>>);

impl Sender for Flood {
    type PublicKey = Key;

    fn send(&mut self, _: Recipients<Key>, message: Bytes, _: bool) {
        if let Some(mailbox) = self.0.get() {
            let _ = mailbox.broadcast(Recipients::All, Blob(message));
        }
    }
}

/// How long an engine that always has a request takes until it has ended after an abort, in milliseconds.
async fn flooded() -> f64 {
    let mailbox = Arc::new(OnceLock::new());
    let (engine, first) = Engine::new(config()).unwrap();
    let (_network, receiver) = mpsc::channel(1);
    let handle = engine.start((Flood(mailbox.clone()), receiver));
    for number in 0..1_000 {
        let _ = first.broadcast(Recipients::All, Blob(blob(number, 100)));
    }
    assert!(mailbox.set(first).is_ok());
    tokio::task::yield_now().await;
    let begin = Instant::now();
    handle.abort();
    assert!(handle.await.is_err());
    begin.elapsed().as_secs_f64() * 1e3
}

/// Own broadcasts a second.
async fn broadcast(run: &Run, blobs: &[Bytes]) -> f64 {
    let messages: Vec<Digested<Blob>> = blobs.iter().map(|it| Blob(it.clone()).into()).collect();
    let begin = Instant::now();
    for message in &messages {
        assert!(run.mailbox.broadcast(Recipients::All, message.clone()).accepted());
    }
    run.mailbox.get([9; 32]).await;
    messages.len() as f64 / begin.elapsed().as_secs_f64()
}

#[tokio::main(flavor = "current_thread")]
async fn main() {
    println!("flooded by requests: an abort after {:.1} ms", flooded().await);
    println!("bytes | received/s | broadcast/s | arrival p50 p99 us | get p50 p99 us");
    let wanted: Vec<usize> = std::env::args().filter_map(|it| it.parse().ok()).collect();
    for (len, count) in [(100, 100_000), (1_000, 50_000), (10_000, 10_000)] {
        if !wanted.is_empty() && !wanted.contains(&len) {
            continue;
        }
        let blobs: Vec<Bytes> = (0..count).map(|it| blob(it, len)).collect();
        let (mut most_received, mut most_broadcast) = (0.0_f64, 0.0_f64);
        let mut least = [(f64::MAX, f64::MAX); 2];
        for _ in 0..ROUNDS {
            most_received = received(&start(), &blobs).await.max(most_received);
            most_broadcast = broadcast(&start(), &blobs).await.max(most_broadcast);
            for (least, new) in least.iter_mut().zip(latencies(&start(), &blobs).await) {
                *least = (least.0.min(new.0), least.1.min(new.1));
            }
        }
        let [arrival, get] = least;
        println!(
            "{len} | {most_received:.0} | {most_broadcast:.0} | {:.1} {:.1} | {:.2} {:.2}",
            arrival.0, arrival.1, get.0, get.1
        );
    }
}
