//! Messages that leave the cache: callers get them, and none stays in memory.

use broadcast_node::{Cache, Digest, Error, Held, Key};
use std::cell::Cell;
use std::panic::{AssertUnwindSafe, catch_unwind};
use std::rc::Rc;

/// A message of so many bytes, which are only counted.
struct Counted(Rc<Cell<usize>>, usize);

impl Counted {
    fn new(alive: &Rc<Cell<usize>>, bytes: usize) -> Counted {
        alive.set(alive.get() + bytes);
        Counted(alive.clone(), bytes)
    }
}

impl Drop for Counted {
    fn drop(&mut self) {
        self.0.set(self.0.get() - self.1);
    }
}

fn key(n: u64) -> Key {
    Key::from(n.to_be_bytes())
}

fn digest(n: u64) -> Digest {
    Digest::sha256(&n.to_be_bytes())
}

/// Most peers have lists of small messages, and one sends large ones: an evicted message is gone after the call.
#[test]
fn memory_is_bounded_by_the_bytes_that_lists_are_charged() -> Result<(), Error> {
    const LARGE: usize = 1 << 20;
    let alive = Rc::new(Cell::new(0));
    let mut cache = Cache::new(key(0), 256, 16 << 20)?;
    cache.update_primary_peers(&(0..32).map(key).collect::<Vec<_>>())?;
    let small = (0..31 * 256).map(|n| (n % 31, n, 8));
    for (peer, n, len) in small.chain((8_000..11_900).map(|n| (31, n, LARGE))) {
        drop(cache.take(&key(peer), &digest(n), len, Counted::new(&alive, len))?);
        let charged: u64 = cache.primary_peers().iter().map(|it| cache.bytes_of(it)).sum();
        assert!(alive.get() as u64 <= charged, "{} of {charged} bytes", alive.get());
    }
    assert_eq!((alive.get(), cache.bytes_of(&key(31))), (31 * 256 * 8 + 16 * LARGE, 16 << 20));
    cache.update_primary_peers(&[])?;
    assert_eq!((alive.get(), cache.bytes(), cache.bytes_of(&key(31))), (0, 0, 0));
    Ok(())
}

/// A list is charged for each take what that take said, and the messages what they were charged first.
#[test]
fn bytes_are_those_of_lists_and_of_messages() -> Result<(), Error> {
    let mut cache = Cache::new(key(0), 2, 100)?;
    cache.update_primary_peers(&[key(0), key(1)])?;
    let mut take = |peer, n, charge| {
        drop(cache.take(&key(peer), &digest(n), charge, n)?);
        Ok::<_, Error>((cache.bytes_of(&key(0)), cache.bytes_of(&key(1)), cache.bytes()))
    };
    assert_eq!(take(0, 1, 10), Ok((10, 0, 10)));
    assert_eq!(take(1, 1, 30), Ok((10, 30, 10)));
    assert_eq!(take(0, 1, 20), Ok((20, 30, 10)));
    assert_eq!(take(0, 2, 5), Ok((25, 30, 15)));
    assert_eq!(take(0, 3, 101), Ok((25, 30, 15)));
    assert_eq!(take(0, 4, 100), Ok((100, 30, 110)));
    assert_eq!(cache.bytes_of(&key(2)), 0);
    Ok(())
}

/// A message that panics when it is dropped.
struct Bomb(bool);

impl Drop for Bomb {
    fn drop(&mut self) {
        assert!(!self.0, "a bomb");
    }
}

/// A take reports which tickets it served before it drops evicted messages.
#[test]
fn a_drop_that_panics_loses_no_reply() -> Result<(), Error> {
    let mut cache = Cache::new(key(0), 1, u64::MAX)?;
    cache.update_primary_peers(&[key(0)])?;
    drop(cache.take(&key(0), &digest(0), 1, Bomb(true))?);
    for n in 1..4 {
        let _ticket = cache.subscribe(&digest(n))?;
        let taken = cache.take(&key(0), &digest(n), 1, Bomb(true))?;
        assert_eq!((taken.served.len(), taken.evicted.len()), (1, 1));
        assert!(catch_unwind(AssertUnwindSafe(|| drop(taken))).is_err());
        assert_eq!((cache.len(), cache.iter().count()), (1, 1));
    }
    for (_, bomb) in cache.update_primary_peers(&[])? {
        std::mem::forget(bomb);
    }
    Ok(())
}

/// The drop of one message panics. The others are dropped.
#[test]
fn a_drop_that_panics_leaves_no_message() -> Result<(), Error> {
    let alive = Rc::new(Cell::new(0));
    let mut cache = Cache::new(key(0), 3, u64::MAX)?;
    cache.update_primary_peers(&[key(0)])?;
    for n in 0..3 {
        let message = (Counted::new(&alive, 1), Bomb(n == 1));
        drop(cache.take(&key(0), &digest(n), 1, message)?);
    }
    assert!(catch_unwind(AssertUnwindSafe(|| cache.update_primary_peers(&[]).map(drop))).is_err());
    assert_eq!((alive.get(), cache.iter().count()), (0, 0));
    Ok(())
}

/// In the order in which they left: a list drops its oldest first.
#[test]
fn callers_get_what_left() -> Result<(), Error> {
    let mut cache = Cache::new(key(0), 2, 100)?;
    cache.update_primary_peers(&[key(0)])?;
    let mut left = Vec::new();
    for n in 0..10 {
        let taken = cache.take(&key(0), &digest(n), 1, n)?;
        assert!(matches!(taken.message, Held::Cached(it) if *it == n));
        assert_eq!(taken.evicted.len(), usize::from(n > 1));
        left.extend(taken.evicted);
    }
    // A message of the whole budget leaves no other on the list.
    left.extend(cache.take(&key(0), &digest(10), 100, 10)?.evicted);
    drop(cache.take(&key(0), &digest(11), 0, 11)?);
    left.extend(cache.update_primary_peers(&[])?);
    assert_eq!(left, (0..12).map(|n| (digest(n), n)).collect::<Vec<_>>());
    // A message that is not kept comes back, and none leaves.
    let taken = cache.take(&key(0), &digest(0), 1, 7)?;
    assert!(matches!(taken.message, Held::Returned(7)) && taken.evicted.len() == 0);
    Ok(())
}

/// A message leaves when the last list drops it, whichever message pushes it out.
#[test]
fn a_message_leaves_with_its_last_list() -> Result<(), Error> {
    let mut cache = Cache::new(key(0), 1, u64::MAX)?;
    cache.update_primary_peers(&[key(0), key(1)])?;
    let mut take = |peer, n| {
        let taken = cache.take(&key(peer), &digest(n), 1, n)?;
        let is_kept = matches!(taken.message, Held::Cached(_));
        Ok::<_, Error>((is_kept, taken.evicted.map(|it| it.1).collect::<Vec<_>>()))
    };
    assert_eq!(take(0, 1), Ok((true, vec![])));
    assert_eq!(take(1, 1), Ok((false, vec![])));
    assert_eq!(take(0, 2), Ok((true, vec![])));
    assert_eq!(take(1, 2), Ok((false, vec![1])));
    assert_eq!(take(0, 3), Ok((true, vec![])));
    assert_eq!(take(1, 3), Ok((false, vec![2])));
    Ok(())
}

/// An evicted message is not seen any more, also if nobody dropped it.
#[test]
fn a_forgotten_result_leaves_no_ghost() -> Result<(), Error> {
    let alive = Rc::new(Cell::new(0));
    let mut cache = Cache::new(key(0), 2, u64::MAX)?;
    cache.update_primary_peers(&[key(0)])?;
    let shows = |cache: &mut Cache<Rc<Counted>>| {
        let mut seen: Vec<Digest> = cache.iter().map(|it| *it.0).collect();
        let mut stored: Vec<Digest> = cache.snapshot()?.messages.iter().map(|it| it.0).collect();
        let mut listed = cache.list(&key(0))?;
        seen.sort();
        stored.sort();
        listed.sort();
        assert_eq!((&seen, &stored), (&listed, &listed));
        Ok::<_, Error>(seen.len())
    };
    for n in 0..6 {
        // The third one comes again after it left.
        let n = if n == 5 { 2 } else { n };
        let message = Rc::new(Counted::new(&alive, 1));
        std::mem::forget(cache.take(&key(0), &digest(n), 1, message)?);
        shows(&mut cache)?;
    }
    assert_eq!(shows(&mut cache), Ok(2));
    std::mem::forget(cache.update_primary_peers(&[])?);
    assert_eq!(shows(&mut cache), Ok(0));
    cache.update_primary_peers(&[key(0)])?;
    drop(cache.take(&key(0), &digest(7), 1, Rc::new(Counted::new(&alive, 1)))?);
    assert_eq!(shows(&mut cache), Ok(1));
    drop(cache);
    assert_eq!(alive.get(), 0);
    Ok(())
}
