//! Times the calls of a cache in plain Rust, as `rates cache` does those of the core.
//!
//!     caches plain|hashed|expert WHAT KEY PEERS SIZE ROUNDS
//!
//! The words, the calls and the line that is printed are those of `rates cache`.

// `cached` is not called here.
#[allow(dead_code)]
#[path = "../../../rust/broadcast-node/benches/cost/expert.rs"]
mod expert;
#[allow(dead_code)]
#[path = "../../../rust/broadcast-node/benches/cost/hashed.rs"]
mod hashed;
#[allow(dead_code)]
#[path = "../../../rust/broadcast-node/benches/cost/plain.rs"]
mod plain;

use expert::Expert;
use hashed::Hashed;
use plain::Plain;
use std::env;
use std::hash::Hash;
use std::hint::black_box;
use std::sync::Arc;
use std::time::Instant;

const LEN: usize = 100;
/// The step from one awaited digest to the next that is cleaned up. It is prime.
const STEP: u64 = 7919;

type Message = Arc<Vec<u8>>;

#[derive(Clone, Copy)]
enum Of {
    Peer = 1,
    Message,
    Awaited,
}

fn mix(mut z: u64) -> u64 {
    z = (z ^ (z >> 30)).wrapping_mul(0xbf58_476d_1ce4_e5b9);
    z = (z ^ (z >> 27)).wrapping_mul(0x94d0_49bb_1331_11eb);
    z ^ (z >> 31)
}

fn part(of: Of, number: u64, place: u64) -> u64 {
    mix(number.wrapping_mul(16).wrapping_add(place * 4 + of as u64))
}

struct Random(u64);

impl Random {
    fn below(&mut self, n: u64) -> u64 {
        self.0 = self.0.wrapping_add(0x9e37_79b9_7f4a_7c15);
        mix(self.0).checked_rem(n).unwrap_or(0)
    }
}

/// A key of a peer, or a digest of a message.
trait Name: Copy + Ord + Hash {
    fn named(of: Of, number: u64) -> Self;
}

impl Name for u64 {
    fn named(of: Of, number: u64) -> u64 {
        part(of, number, 0)
    }
}

impl Name for [u8; 32] {
    fn named(of: Of, number: u64) -> [u8; 32] {
        let mut bytes = [0; 32];
        for (place, to) in bytes.chunks_exact_mut(8).enumerate() {
            to.copy_from_slice(&part(of, number, place as u64).to_le_bytes());
        }
        bytes
    }
}

trait Cache<K> {
    fn create(size: usize, keys: &[K]) -> Self;
    fn take(&mut self, peer: &K, digest: &K, message: Message) -> bool;
    fn get(&self, digest: &K) -> bool;
    fn list(&self, peer: &K) -> Vec<K>;
    fn subscribe(&mut self, ticket: u64, digest: &K) -> bool;
    fn cancel(&mut self, digest: &K, ticket: u64) -> bool;
}

impl<K: Name> Cache<K> for Plain<K, Message> {
    fn create(size: usize, keys: &[K]) -> Self {
        let mut cache = Plain::new(size, u64::MAX);
        cache.peers(keys);
        cache
    }

    fn take(&mut self, peer: &K, digest: &K, message: Message) -> bool {
        black_box(Plain::take(self, peer, digest, message.len() as u64, message)).0 == Some(true)
    }

    fn get(&self, digest: &K) -> bool {
        Plain::get(self, digest).is_some()
    }

    fn list(&self, peer: &K) -> Vec<K> {
        Plain::list(self, peer)
    }

    fn subscribe(&mut self, ticket: u64, digest: &K) -> bool {
        Plain::subscribe(self, ticket, digest)
    }

    fn cancel(&mut self, digest: &K, ticket: u64) -> bool {
        Plain::cancel(self, digest, ticket)
    }
}

impl<K: Name> Cache<K> for Hashed<K, Message> {
    fn create(size: usize, keys: &[K]) -> Self {
        let mut cache = Hashed::new(size, u64::MAX);
        cache.peers(keys);
        cache
    }

    fn take(&mut self, peer: &K, digest: &K, message: Message) -> bool {
        black_box(Hashed::take(self, peer, digest, message.len() as u64, message)).0 == Some(true)
    }

    fn get(&self, digest: &K) -> bool {
        Hashed::get(self, digest).is_some()
    }

    fn list(&self, peer: &K) -> Vec<K> {
        Hashed::list(self, peer)
    }

    fn subscribe(&mut self, ticket: u64, digest: &K) -> bool {
        Hashed::subscribe(self, ticket, digest)
    }

    fn cancel(&mut self, digest: &K, ticket: u64) -> bool {
        Hashed::cancel(self, digest, ticket)
    }
}

impl<K: Name> Cache<K> for Expert<K, Message> {
    fn create(size: usize, keys: &[K]) -> Self {
        Expert::new(size, u64::MAX, keys)
    }

    fn take(&mut self, peer: &K, digest: &K, message: Message) -> bool {
        black_box(Expert::take(self, peer, digest, message.len() as u64, message)).0 == Some(true)
    }

    fn get(&self, digest: &K) -> bool {
        Expert::get(self, digest).is_some()
    }

    fn list(&self, peer: &K) -> Vec<K> {
        Expert::list(self, peer)
    }

    fn subscribe(&mut self, ticket: u64, digest: &K) -> bool {
        Expert::subscribe(self, ticket, digest)
    }

    fn cancel(&mut self, digest: &K, ticket: u64) -> bool {
        Expert::cancel(self, digest, ticket)
    }
}

/// A cache, the keys of its peers, and where the calls are.
struct Load<K, C> {
    cache: C,
    keys: Vec<K>,
    random: Random,
    at: u64,
}

impl<K: Name, C: Cache<K>> Load<K, C> {
    fn take_one(&mut self, peer: u64, number: u64) -> u64 {
        let Some(key) = self.keys.get(peer as usize) else { return 0 };
        let message = Arc::new(vec![7; LEN]);
        self.cache.take(key, &K::named(Of::Message, number), message).into()
    }

    fn take(&mut self, takes: u64) -> u64 {
        let peers = self.keys.len() as u64;
        let take = |_| {
            self.at += 1;
            let number = (self.at / 4).saturating_sub(self.random.below(8));
            let peer = self.random.below(peers);
            self.take_one(peer, number)
        };
        (0..takes).map(take).sum()
    }

    fn take_any(&mut self, takes: u64, of: u64) -> u64 {
        let take = |_| {
            let number = self.random.below(of);
            self.take_one(0, number)
        };
        (0..takes).map(take).sum()
    }

    fn fill(&mut self, messages: u64) -> u64 {
        let peers = self.keys.len() as u64;
        let mut each = |number| (0..peers).map(|peer| self.take_one(peer, number)).sum::<u64>();
        (0..messages).map(&mut each).sum()
    }

    fn get(&mut self, gets: u64, of: u64) -> u64 {
        let get = |_| u64::from(self.cache.get(&K::named(Of::Message, self.random.below(of))));
        (0..gets).map(get).sum()
    }

    fn list(&self, lists: u64) -> u64 {
        let of = |number: u64| &self.keys[number as usize % self.keys.len()];
        (0..lists).map(|it| black_box(self.cache.list(of(it))).len() as u64).sum()
    }

    fn subscribe(&mut self, number: u64) -> u64 {
        let subscribe = |it| u64::from(self.cache.subscribe(it, &K::named(Of::Awaited, it)));
        (0..number).map(subscribe).sum()
    }

    fn cleanup(&mut self, number: u64) -> u64 {
        let cleanup = |round: u64| {
            let ticket = round.wrapping_mul(STEP).checked_rem(number).unwrap_or(0);
            u64::from(self.cache.cancel(&K::named(Of::Awaited, ticket), ticket))
        };
        (0..number).map(cleanup).sum()
    }
}

fn measure<K: Name, C: Cache<K>>(what: &str, [peers, size, rounds]: [u64; 3]) {
    let keys: Vec<K> = (0..peers).map(|it| K::named(Of::Peer, it)).collect();
    let cache = C::create(size as usize, &keys);
    let mut load = Load { cache, keys, random: Random(5), at: 0 };
    match what {
        "take" => load.take((peers * size * 3 / 2).max(1000)),
        "deep" => load.fill(size * 2),
        "get" => load.fill(size),
        "list" => load.take(peers * size * 2),
        "cleanup" => load.subscribe(rounds),
        _ => 0,
    };
    let began = Instant::now();
    let counted = match what {
        "take" => load.take(rounds),
        "deep" => load.take_any(rounds, size * 2),
        "fill" => load.fill(rounds),
        "get" => load.get(rounds, size),
        "list" => load.list(rounds),
        "subscribe" => load.subscribe(rounds),
        "cleanup" => load.cleanup(rounds),
        _ => panic!("no such call: {what}"),
    };
    let nanos = began.elapsed().as_nanos() as u64;
    let calls = match what {
        "list" => counted,
        "fill" => rounds * peers,
        _ => rounds,
    };
    let tenths = nanos * 10 / calls.max(1);
    println!("{what} {}.{} ns, {counted} counted", tenths / 10, tenths % 10);
}

fn main() {
    let words: Vec<String> = env::args().skip(1).collect();
    let numbers: Vec<u64> = words.iter().filter_map(|it| it.parse().ok()).collect();
    let [key, peers, size, rounds] = numbers[..] else { panic!("four numbers are wanted") };
    let numbers = [peers, size, rounds];
    match (words[0].as_str(), key) {
        ("plain", 8) => measure::<u64, Plain<_, _>>(&words[1], numbers),
        ("plain", 32) => measure::<[u8; 32], Plain<_, _>>(&words[1], numbers),
        ("hashed", 8) => measure::<u64, Hashed<_, _>>(&words[1], numbers),
        ("hashed", 32) => measure::<[u8; 32], Hashed<_, _>>(&words[1], numbers),
        ("expert", 8) => measure::<u64, Expert<_, _>>(&words[1], numbers),
        ("expert", 32) => measure::<[u8; 32], Expert<_, _>>(&words[1], numbers),
        _ => panic!("the caches are plain, hashed and expert, and keys have 8 or 32 bytes"),
    }
}
