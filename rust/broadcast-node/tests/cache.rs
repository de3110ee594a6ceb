//! A cache beside the model: lists of generated calls, and what generated calls do not reach.

mod common;

use broadcast_node::{Cache, Digest, Error, Evicted, Held, Key, Outcome, Subscribed, Ticket};
use common::{Model, Random, digest, key, some_keys};
use std::rc::Rc;
use std::time::{Duration, Instant};

#[derive(Default, Debug)]
struct Seen {
    inserted: u64,
    duplicate: u64,
    ineligible: u64,
    oversize: u64,
    returned: u64,
    evicted: u64,
    served: u64,
    cached: u64,
    waiting: u64,
    got: u64,
    missed: u64,
    removed: u64,
    cancelled: u64,
    not_cancelled: u64,
    strange: u64,
    restored: u64,
}

/// Takes some of what left out, and drops the others.
fn compare(mut evicted: Evicted<'_, Rc<u64>>, left: Vec<(Digest, Rc<u64>)>) {
    assert_eq!(evicted.len(), left.len());
    let some = left.len() / 2;
    assert!(evicted.by_ref().take(some).all(|it| left.contains(&it)));
    assert_eq!(evicted.len(), left.len() - some);
}

/// The messages that the model had before, and has no more.
fn left(before: Vec<(Digest, Rc<u64>)>, model: &Model<Rc<u64>, Ticket>) -> Vec<(Digest, Rc<u64>)> {
    before.into_iter().filter(|it| model.get(&it.0).is_none()).collect()
}

/// The cache and the model, both of which share the messages: so their counts show which the cache has.
struct Pair {
    cache: Cache<Rc<u64>>,
    model: Model<Rc<u64>, Ticket>,
    random: Random,
    tickets: Vec<Ticket>,
    given: Vec<Rc<u64>>,
    seen: Seen,
}

impl Pair {
    fn new(seed: u64) -> Pair {
        let mut random = Random::new(seed);
        let (own, size) = (key(1), random.place(5));
        let budget = if random.chance(50) { u64::MAX } else { random.below(1_500) };
        Pair {
            cache: Cache::new(own, size, budget).unwrap(),
            model: Model::new(own, size, budget),
            random,
            tickets: Vec::new(),
            given: Vec::new(),
            seen: Seen::default(),
        }
    }

    fn peers(&mut self) {
        let keys = some_keys(&mut self.random);
        let before = self.model.messages.clone();
        self.model.peers(&keys);
        let evicted = self.cache.update_primary_peers(&keys).unwrap();
        compare(evicted, left(before, &self.model));
    }

    fn charge(&mut self) -> usize {
        match self.random.below(20) {
            0 => usize::MAX,
            1 => 0,
            2 => self.model.byte_budget.min(1 << 40) as usize,
            _ => self.random.place(400),
        }
    }

    fn take(&mut self, peer: &Key, name: &Digest, at: u64) {
        let (charge, message) = (self.charge(), Rc::new(at));
        self.given.push(message.clone());
        let is_own = *peer == self.model.own;
        let taken = match is_own && self.random.chance(75) {
            true => self.cache.take_own(name, charge, message.clone()),
            false => self.cache.take(peer, name, charge, message.clone()),
        };
        let taken = taken.unwrap();
        let before = self.model.messages.clone();
        let (outcome, served) = self.model.take(peer, name, charge as u64, &message);
        assert_eq!((taken.outcome, taken.served), (outcome, &served[..]));
        assert!(Rc::ptr_eq(&taken.message, &message));
        let is_kept = self.model.get(name).is_some_and(|it| Rc::ptr_eq(it, &message));
        assert_eq!(matches!(taken.message, Held::Cached(_)), is_kept);
        self.seen.evicted += taken.evicted.len() as u64;
        compare(taken.evicted, left(before, &self.model));
        self.seen.returned += u64::from(!is_kept);
        self.seen.served += served.len() as u64;
        *match outcome {
            Outcome::Inserted => &mut self.seen.inserted,
            Outcome::Duplicate => &mut self.seen.duplicate,
            Outcome::Ineligible => &mut self.seen.ineligible,
            Outcome::Oversize => &mut self.seen.oversize,
            other => panic!("{other:?}"),
        } += 1;
    }

    fn subscribe(&mut self, name: &Digest) {
        let known = self.model.get(name).cloned();
        match (self.cache.subscribe(name).unwrap(), known) {
            (Subscribed::Cached(message), Some(known)) => {
                assert!(Rc::ptr_eq(message, &known));
                self.seen.cached += 1;
            }
            (Subscribed::Waiting(ticket), None) => {
                assert!(!self.tickets.contains(&ticket), "a ticket is drawn once");
                self.tickets.push(ticket);
                self.model.wait(ticket, name);
                self.seen.waiting += 1;
            }
            (other, known) => panic!("{other:?} and {known:?}"),
        }
    }

    fn cleanup(&mut self) {
        let some = |random: &mut Random, tickets: &[Ticket]| tickets[random.place(tickets.len())];
        let count = if self.tickets.is_empty() { 0 } else { self.random.below(6) };
        let gone: Vec<Ticket> = (0..count).map(|_| some(&mut self.random, &self.tickets)).collect();
        let removed = self.cache.cleanup(&gone);
        assert_eq!(removed, self.model.cleanup(&gone));
        self.seen.removed += removed;
    }

    /// A ticket that was drawn, of the digest that it waits for, or of any.
    fn cancel(&mut self, name: &Digest) {
        let drawn = self.tickets.len().max(1);
        let Some(ticket) = self.tickets.get(self.random.place(drawn)).copied() else { return };
        let awaited = self.model.waiters.iter().find(|it| it.0 == ticket && self.random.chance(50));
        let name = awaited.map_or(*name, |it| it.1);
        let was_waiting = self.cache.cancel(&name, ticket);
        assert_eq!(was_waiting, self.model.cancel(&name, ticket));
        *if was_waiting { &mut self.seen.cancelled } else { &mut self.seen.not_cancelled } += 1;
    }

    fn get(&mut self, name: &Digest) {
        match (self.cache.get(name), self.model.get(name)) {
            (Some(message), Some(known)) => {
                assert!(Rc::ptr_eq(message, known));
                self.seen.got += 1;
            }
            (None, None) => self.seen.missed += 1,
            other => panic!("{other:?}"),
        }
        assert_eq!(self.cache.contains(name), self.model.get(name).is_some());
    }

    /// Goes on with a cache that is made of a snapshot. Nobody waits then.
    fn restore(&mut self) {
        let snapshot = self.cache.snapshot().unwrap();
        assert_eq!(snapshot.lists, self.model.lists());
        assert_eq!(self.cache.snapshot().unwrap(), snapshot);
        let bytes = self.cache.bytes();
        let (own, size, budget) = (self.model.own, self.model.deque_size, self.model.byte_budget);
        self.cache = Cache::restore(own, size, budget, snapshot).unwrap();
        assert_eq!(self.cache.bytes(), bytes);
        self.model.waiters.clear();
        self.tickets.clear();
        self.seen.restored += 1;
    }

    fn step(&mut self, at: u64) {
        let (name, peer) = (digest(self.random.below(12)), key(self.random.below(8)));
        match if at == 0 { 0 } else { self.random.below(100) } {
            0..5 => self.peers(),
            5..45 => self.take(&peer, &name, at),
            45..70 => self.subscribe(&name),
            70..75 => self.cleanup(),
            75..80 => self.cancel(&name),
            80 => self.restore(),
            _ => self.get(&name),
        }
        let counts = self.cache.counts();
        assert_eq!(counts.cached, self.model.messages.len());
        assert_eq!(counts.awaited, self.model.awaited());
        assert_eq!(counts.waiting, self.model.waiters.len());
        let told = (self.cache.len(), self.cache.awaited(), self.cache.waiting());
        assert_eq!(told, (counts.cached, counts.awaited, counts.waiting));
        assert_eq!(self.cache.is_empty(), self.model.messages.is_empty());
        assert_eq!(self.cache.iter().count(), counts.cached);
        assert!(self.cache.iter().all(|it| self.cache.get(it.0) == Some(it.1)));
        assert_eq!(self.cache.list(&peer).unwrap(), self.model.list(&peer));
        assert_eq!(u128::from(self.cache.bytes_of(&peer)), self.model.bytes_of(&peer));
        let is_primary = self.model.primary.contains(&peer);
        assert_eq!(self.cache.is_primary(&peer), is_primary);
        self.seen.strange += u64::from(!is_primary);
        self.looks_at_what_is_held();
    }

    /// Of the messages that were given, the cache has those that are cached, and no others.
    fn looks_at_what_is_held(&self) {
        let is_cached =
            |it: &Rc<u64>| self.model.messages.iter().any(|(_, known)| Rc::ptr_eq(it, known));
        let held = |it: &Rc<u64>| Rc::strong_count(it) - 1;
        assert!(self.given.iter().all(|it| held(it) == 2 * usize::from(is_cached(it))));
    }
}

#[test]
fn generated_calls_go_as_the_model_says() {
    let mut total = Seen::default();
    for seed in common::seeds() {
        let mut pair = Pair::new(seed);
        for at in 0..200 {
            let _context = Context(seed, at);
            pair.step(at);
        }
        total.add(&pair.seen);
    }
    println!("{total:?}");
    assert!(total.least() >= 300, "{total:?}");
}

/// Prints where a test was when it failed.
struct Context(u64, u64);

impl Drop for Context {
    fn drop(&mut self) {
        if std::thread::panicking() {
            eprintln!("at seed {}, call {}", self.0, self.1);
        }
    }
}

impl Seen {
    fn fields(&mut self) -> [&mut u64; 16] {
        [
            &mut self.inserted,
            &mut self.duplicate,
            &mut self.ineligible,
            &mut self.oversize,
            &mut self.returned,
            &mut self.evicted,
            &mut self.served,
            &mut self.cached,
            &mut self.waiting,
            &mut self.got,
            &mut self.missed,
            &mut self.removed,
            &mut self.cancelled,
            &mut self.not_cancelled,
            &mut self.strange,
            &mut self.restored,
        ]
    }

    fn add(&mut self, other: &Seen) {
        let mut other = Seen { ..*other };
        for (sum, more) in self.fields().into_iter().zip(other.fields()) {
            *sum += *more;
        }
    }

    fn least(&mut self) -> u64 {
        self.fields().into_iter().map(|it| *it).min().unwrap()
    }
}

fn own() -> Key {
    Key::from([1; 32])
}

#[test]
fn nothing_and_much_cross_as_well() -> Result<(), Error> {
    let mut cache = Cache::new(own(), 20_000, u64::MAX)?;
    cache.update_primary_peers(&[])?;
    assert_eq!(cache.cleanup(&[]), 0);
    cache.update_primary_peers(&[own()])?;
    let mut tickets = Vec::new();
    for _ in 0..10_000 {
        match cache.subscribe(&digest(2))? {
            Subscribed::Waiting(ticket) => tickets.push(ticket),
            other => panic!("{other:?}"),
        }
    }
    assert_eq!(cache.take_own(&digest(2), 0, ())?.served, tickets);
    let mut digests = vec![digest(2)];
    for n in 0..5_000_u64 {
        let mut name = [0xee; 32];
        name[..8].copy_from_slice(&n.to_be_bytes());
        let _ = cache.take_own(&name.into(), 9, ())?;
        digests.insert(0, name.into());
    }
    assert_eq!(cache.list(&own())?, digests);
    let mut list = vec![digest(9); 7];
    cache.list_into(&own(), &mut list)?;
    assert_eq!(list, digests);
    cache.list_into(&key(7), &mut list)?;
    assert_eq!(list, []);
    Ok(())
}

/// One walk over all awaited digests for each ticket would take minutes.
#[test]
fn a_ticket_of_many_is_cancelled_at_once() -> Result<(), Error> {
    const DIGESTS: u64 = 100_000;
    let mut cache = Cache::<()>::new(own(), 10, 1_000)?;
    let mut waiting = Vec::new();
    for n in 0..DIGESTS {
        let mut name = [0; 32];
        name[..8].copy_from_slice(&n.wrapping_mul(0x9e37_79b9_7f4a_7c15).to_be_bytes());
        match cache.subscribe(&name.into())? {
            Subscribed::Waiting(ticket) => waiting.push((name.into(), ticket)),
            other => panic!("{other:?}"),
        }
    }
    let start = Instant::now();
    assert!(waiting.iter().all(|(name, ticket)| cache.cancel(name, *ticket)));
    let time = start.elapsed();
    assert_eq!((cache.awaited(), cache.waiting()), (0, 0));
    println!("{} ns each", time.as_nanos() / u128::from(DIGESTS));
    assert!(time < Duration::from_secs(10), "{time:?}");
    Ok(())
}

#[test]
fn the_budget_is_kept_to_the_byte() -> Result<(), Error> {
    let mut cache = Cache::new(own(), 10, 20)?;
    cache.update_primary_peers(&[own()])?;
    let mut take = |n: u64, charge| {
        let outcome = cache.take_own(&digest(n), charge, ()).map(|it| it.outcome);
        (outcome, cache.list(&own()).unwrap())
    };
    assert_eq!(take(1, 21), (Ok(Outcome::Oversize), vec![]));
    assert_eq!(take(2, 20), (Ok(Outcome::Inserted), vec![digest(2)]));
    assert_eq!(take(3, 10), (Ok(Outcome::Inserted), vec![digest(3)]));
    assert_eq!(take(4, 10), (Ok(Outcome::Inserted), vec![digest(4), digest(3)]));
    assert_eq!(take(3, 11), (Ok(Outcome::Duplicate), vec![digest(3)]));
    Ok(())
}

#[test]
fn keys_of_each_length_are_apart() -> Result<(), Error> {
    let keys: Vec<Key> = (0..=64).map(|len| Key::try_from(&vec![0; len][..]).unwrap()).collect();
    let mut cache = Cache::new(keys[0], 1, 10)?;
    cache.update_primary_peers(&keys)?;
    for (n, key) in keys.iter().enumerate() {
        let _ = cache.take(key, &digest(n as u64), 1, n)?;
    }
    for (n, key) in keys.iter().enumerate() {
        assert_eq!(cache.list(key)?, [digest(n as u64)]);
        assert_eq!(cache.get(&digest(n as u64)), Some(&n));
    }
    Ok(())
}

#[test]
fn two_caches_are_apart() -> Result<(), Error> {
    let mut one = Cache::new(own(), 3, 1_000)?;
    let mut other = Cache::new(own(), 3, 1_000)?;
    one.update_primary_peers(&[own()])?;
    other.update_primary_peers(&[own()])?;
    let _ = one.take_own(&digest(7), 3, "one")?;
    assert_eq!(other.get(&digest(7)), None);
    drop(one);
    let _ = other.take_own(&digest(7), 5, "other")?;
    assert_eq!(other.get(&digest(7)), Some(&"other"));
    Ok(())
}

#[test]
fn a_cache_moves_to_another_thread() -> Result<(), Error> {
    let mut cache = Cache::new(own(), 3, 1_000)?;
    cache.update_primary_peers(&[own()])?;
    let _ = cache.subscribe(&digest(7))?;
    let moved = std::thread::spawn(move || {
        let served = cache.take_own(&digest(7), 5, "there").map(|taken| taken.served.len());
        served.map(|served| (served, cache))
    });
    let (served, cache) = moved.join().unwrap()?;
    assert_eq!(served, 1);
    assert_eq!(cache.get(&digest(7)), Some(&"there"));
    Ok(())
}

/// A cache drops each message that it has.
#[test]
fn caches_come_and_go() -> Result<(), Error> {
    let counted = Rc::new(());
    for round in 0..200_u64 {
        let mut cache = Cache::new(key(round), (round % 4) as usize, 2_000)?;
        if round % 3 > 0 {
            cache.update_primary_peers(&[key(round), key(9), key(round), key(9)])?;
        }
        for at in 0..round % 7 {
            let _ = cache.subscribe(&digest(at))?;
            let _ = cache.subscribe(&digest(at))?;
            if at % 2 == 0 {
                let _ = cache.take(&key(9), &digest(at), 300 * at as usize, counted.clone())?;
                let _ = cache.take_own(&digest(at), 7, counted.clone())?;
            }
        }
    }
    assert_eq!(Rc::strong_count(&counted), 1);
    Ok(())
}
