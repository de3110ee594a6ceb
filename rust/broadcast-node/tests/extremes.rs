//! Calls with any numbers, mostly small ones and those at the ends of their types: none panics, each result is within its
//! bounds, and a call that fails has changed nothing.

mod common;

use broadcast_node::log::{AuthorLog, Message};
use broadcast_node::{
    Bucket, Cache, Coverage, Digest, Key, Limits, Node, Recipients, RestoreError, Snapshot, Span,
    Subscribed, Ticket,
};
use common::Random;

const SEEDS: std::ops::Range<u64> = 0..400;

fn number(random: &mut Random) -> u64 {
    let near = random.below(4);
    match random.below(6) {
        0 => u64::MAX - near,
        1 => (1 << 63) - 2 + near,
        2 => (1 << 32) - 2 + near,
        3 => (random.next() << 32 ^ random.next()) >> random.below(64),
        _ => random.below(12),
    }
}

fn some<T>(random: &mut Random, most: u64, of: impl Fn(&mut Random) -> T) -> Vec<T> {
    (0..random.below(most)).map(|_| of(random)).collect()
}

fn key(random: &mut Random) -> Key {
    let len = random.place(Key::MAX_LEN + 1) * random.place(2);
    Key::try_from(&vec![random.below(3) as u8; len][..]).unwrap()
}

fn digest(random: &mut Random) -> Digest {
    Digest::new([random.below(9) as u8; 32])
}

/// All that a cache returns of itself.
type Shown = (Snapshot<u64>, u64, usize, usize, Vec<u64>);

fn shown(cache: &mut Cache<u64>) -> Shown {
    let bytes = cache.primary_peers().iter().map(|it| cache.bytes_of(it)).collect();
    let (all, awaited, waiting) = (cache.bytes(), cache.awaited(), cache.waiting());
    (cache.snapshot().unwrap(), all, awaited, waiting, bytes)
}

#[test]
fn a_cache_keeps_its_bounds() {
    for seed in SEEDS {
        let random = &mut Random::new(seed);
        let (own, size, budget) = (key(random), number(random) as usize, number(random));
        let mut cache = Cache::new(own, size, budget).unwrap();
        let mut tickets: Vec<Ticket> = Vec::new();
        for at in 0..40 {
            let (peer, name) = (key(random), digest(random));
            match random.below(7) {
                0 => drop(cache.update_primary_peers(&some(random, 9, key)).unwrap()),
                1 => match cache.subscribe(&name).unwrap() {
                    Subscribed::Waiting(ticket) => tickets.push(ticket),
                    found => assert!(matches!(found, Subscribed::Cached(_))),
                },
                2 => assert!(cache.cleanup(&tickets) <= tickets.len() as u64),
                3 => assert!(tickets.iter().filter(|it| cache.cancel(&name, **it)).count() <= 40),
                _ => drop(cache.take(&peer, &name, number(random) as usize, at).unwrap()),
            }
            let before = shown(&mut cache);
            for (peer, list) in &before.0.lists {
                assert!(list.len() <= size && cache.bytes_of(peer) <= budget, "seed {seed}");
                assert!(list.iter().all(|it| cache.contains(&it.0)), "seed {seed}");
            }
            let (size, budget) = (number(random) as usize, number(random));
            match Cache::restore(own, size, budget, before.0.clone()) {
                Ok(mut restored) => assert_eq!(restored.snapshot().unwrap().lists, before.0.lists),
                Err(RestoreError::TooManyDigests { found, allowed, .. }) => {
                    assert!(found > allowed)
                }
                Err(RestoreError::TooManyBytes { found, allowed, .. }) => {
                    assert!(found > allowed.into())
                }
                Err(other) => panic!("seed {seed}: {other}"),
            }
            assert_eq!(shown(&mut cache), before, "seed {seed}: looking changes nothing");
        }
    }
}

#[test]
fn a_node_refuses_what_does_not_fit() {
    for seed in SEEDS {
        let random = &mut Random::new(seed);
        let limits = Limits::default().deque_size(number(random) as usize);
        let limits = limits.byte_budget(number(random)).max_len(number(random) as usize);
        let mut node = Node::<Vec<u8>>::new(key(random), limits).unwrap();
        node.update_primary_peers(&some(random, 9, key)).unwrap();
        for _ in 0..30 {
            let len = random.place(20);
            let (peer, bytes) = (key(random), random.bytes(len));
            let before = node.snapshot().unwrap();
            match random.below(3) {
                0 => match node.broadcast(Recipients::All, &bytes).map(drop) {
                    Ok(()) => assert!(bytes.len() <= limits.max_len),
                    Err(error) => {
                        let allowed = limits.max_len;
                        let wanted = format!("has {len} bytes, and at most {allowed} are allowed");
                        assert!(error.to_string().ends_with(&wanted), "{error}");
                        assert_eq!(node.snapshot().unwrap(), before);
                    }
                },
                1 => drop(node.payload(&peer, bytes).unwrap()),
                _ => drop(node.payload(&peer, common::encoded(&bytes)).unwrap()),
            }
            let is_within = |it: &Key| node.bytes_of(it) <= limits.byte_budget;
            assert!(node.primary_peers().iter().all(is_within), "seed {seed}");
        }
    }
}

#[test]
fn texts_and_bytes_are_read_or_refused() {
    let random = &mut Random::new(1);
    for _ in 0..5_000 {
        let characters = ['0', '7', 'a', 'F', 'g', ' ', 'é', '\0'];
        let kinds = if random.chance(50) { 4 } else { 8 };
        let text: String = some(random, 140, |it| characters[it.place(kinds)]).iter().collect();
        let is_hex = text.len().is_multiple_of(2) && text.chars().all(|it| it.is_ascii_hexdigit());
        assert_eq!(text.parse::<Key>().is_ok(), is_hex && text.len() <= 128, "{text}");
        assert_eq!(text.parse::<Digest>().is_ok(), is_hex && text.len() == 64, "{text}");
        let len = random.place(200);
        let bytes = random.bytes(len);
        assert_eq!(Key::try_from(&bytes[..]).is_ok(), len <= 64);
        assert_eq!(Digest::try_from(&bytes[..]).is_ok(), len == 32);
    }
}

/// A coverage, mostly of spans that go on from one another, if these are one.
fn coverage(random: &mut Random) -> Option<Coverage> {
    let floor = number(random);
    let mut at = floor;
    let spans = some(random, 5, |_| ()).into_iter().map(|()| {
        let from =
            if random.chance(95) { at.saturating_add(random.below(4)) } else { number(random) };
        at = from.saturating_add(random.below(9));
        Span { from, to: at }
    });
    Coverage::reported(floor, spans.collect()).unwrap()
}

#[test]
fn a_coverage_has_no_more_than_it_says() {
    let (mut read, mut refused) = (0, 0);
    for seed in 0..5_000 {
        let random = &mut Random::new(seed);
        let (Some(one), Some(other)) = (coverage(random), coverage(random)) else {
            refused += 1;
            continue;
        };
        read += 1;
        for _ in 0..10 {
            let (at, upto) = (number(random), number(random));
            if let Some(it) = one.first_missing(&other, at, upto) {
                assert!(at < it && it <= upto && other.has(it) && !one.has(it), "seed {seed}");
            }
        }
    }
    assert!(read > 500 && refused > 500, "{read} read, {refused} refused");
}

#[test]
fn a_bucket_holds_at_most_its_burst() {
    for seed in SEEDS {
        let random = &mut Random::new(seed);
        let (rate, burst) = (number(random), number(random));
        let mut bucket = Bucket::new(rate, burst, number(random)).unwrap();
        for _ in 0..40 {
            let (now, cost) = (number(random), number(random)); // the clock may run backwards
            let level = bucket.level(now);
            assert!(level <= burst, "seed {seed}");
            if let Some(at) = bucket.ready(now, cost) {
                assert!(at >= now && bucket.level(at) >= cost, "seed {seed}");
            }
            bucket.charge(now, cost);
            assert!(bucket.level(now) <= level, "seed {seed}");
        }
    }
}

#[test]
fn a_log_keeps_its_budget() {
    for seed in SEEDS {
        let random = &mut Random::new(seed);
        let budget = number(random);
        let mut log = AuthorLog::new(budget).unwrap();
        let mut left = Vec::new();
        for handle in 0..60 {
            let (prev, stamp) = (number(random), number(random));
            let message = Message { prev, stamp, bytes: number(random), handle };
            log.arrive(message, number(random), &mut left).unwrap();
            assert!(log.bytes() <= budget, "seed {seed}");
            let index = number(random) as usize;
            assert_eq!(log.get(index).is_some(), index < log.len(), "seed {seed}");
            assert!(log.find(stamp).is_none_or(|it| it.stamp == stamp && log.has(stamp)));
            let report = log.report().unwrap();
            assert_eq!(log.lag(&report), 0, "seed {seed}");
            let Some(reported) = coverage(random) else { continue };
            assert!(log.lag(&reported) <= log.bytes(), "seed {seed}");
            let (sent, in_flight) = (number(random), some(random, 5, number));
            let (flying, room) = (number(random), number(random));
            if let Some(it) = log.next(&reported, sent, &in_flight, flying, room) {
                let is_lacked = !reported.has(it.stamp) && !in_flight.contains(&it.stamp);
                assert!(is_lacked && flying < room && log.find(it.stamp) == Some(it));
            }
        }
    }
}
