//! Each allocation is refused in turn, those of the library too: nothing aborts, and a call that fails has
//! changed nothing.

#![allow(unsafe_code, reason = "an allocator")]

use broadcast_node::log::{Arrived, AuthorLog, Message};
use broadcast_node::{
    Cache, Digest, Error, Key, Limits, Node, Received, Recipients, RestoreError, Subscribed,
};
use std::alloc::{GlobalAlloc, Layout, System};
use std::cell::Cell;
use std::fmt::Debug;
use std::ptr::null_mut;

/// The allocator of this test, which refuses one allocation of a thread.
struct Refusing;

thread_local! {
    /// How many allocations pass before the one that is refused.
    static LEFT: Cell<Option<usize>> = const { Cell::new(None) };
}

fn is_refused() -> bool {
    let left = LEFT.get();
    LEFT.set(left.and_then(|it| it.checked_sub(1)));
    left == Some(0)
}

// SAFETY: this is the system's allocator, but for allocations that are refused.
unsafe impl GlobalAlloc for Refusing {
    unsafe fn alloc(&self, layout: Layout) -> *mut u8 {
        match is_refused() {
            true => null_mut(),
            // SAFETY: as asked of the caller.
            false => unsafe { System.alloc(layout) },
        }
    }

    unsafe fn dealloc(&self, at: *mut u8, layout: Layout) {
        // SAFETY: as asked of the caller.
        unsafe { System.dealloc(at, layout) }
    }
}

#[global_allocator]
static ALLOCATOR: Refusing = Refusing;

/// Makes the call with the allocation refused, and returns whether there was one to refuse.
fn refusing<T>(place: usize, call: impl FnOnce() -> T) -> (T, bool) {
    LEFT.set(Some(place));
    let result = call();
    let was_refused = LEFT.replace(None).is_none();
    (result, was_refused)
}

/// Makes the call with each of its allocations refused. It succeeds all the same, or fails and has changed nothing, so the
/// same call succeeds then. Returns how many allocations it makes.
fn refuse_each<S, T: PartialEq + Debug>(
    make: fn() -> S,
    call: fn(&mut S) -> Result<T, Error>,
) -> usize {
    let expected = call(&mut make()).unwrap();
    let mut place = 0;
    loop {
        let mut state = make();
        match refusing(place, || call(&mut state)) {
            // A map that finds no memory to grow goes on without it, and the next call has the same result.
            (Ok(result), was_refused) => {
                assert_eq!(result, expected);
                if !was_refused {
                    return place;
                }
                let mut other = make();
                call(&mut other).unwrap();
                assert_eq!(call(&mut state), call(&mut other));
            }
            (Err(Error::Memory), true) => assert_eq!(call(&mut state).as_ref(), Ok(&expected)),
            other => panic!("{other:?}"),
        }
        place += 1;
    }
}

fn own() -> Key {
    Key::from([1; 32])
}

fn peer() -> Key {
    Key::from([2; 48])
}

fn digest(n: u8) -> Digest {
    Digest::from([n; 32])
}

/// A cache for which three tickets wait, and which has a message.
fn cache() -> Cache<&'static str> {
    let mut cache = Cache::new(own(), 10, 1_000).unwrap();
    cache.update_primary_peers(&[own(), peer()]).unwrap();
    for _ in 0..3 {
        let _ticket = cache.subscribe(&digest(7)).unwrap();
    }
    drop(cache.take_own(&digest(8), 6, "cached").unwrap());
    cache
}

/// A cache that has some messages on two lists, which charge them differently.
fn charged() -> Cache<&'static str> {
    let mut cache = cache();
    for n in 1..5 {
        drop(cache.take_own(&digest(n), usize::from(n), "message").unwrap());
        drop(cache.take(&peer(), &digest(n % 3), 10 + usize::from(n), "repeat").unwrap());
    }
    drop(cache.take_own(&digest(9), 9, "newest").unwrap());
    cache
}

/// Takes a message. Returns how many were served.
fn take(cache: &mut Cache<&'static str>, name: u8) -> Result<usize, Error> {
    Ok(cache.take(&peer(), &digest(name), 7, "message")?.served.len())
}

#[test]
fn a_cache_loses_no_taking() {
    let made = refuse_each(|| (), |()| Cache::<()>::new(own(), 10, 1_000).map(drop));
    assert_eq!(made, 1, "the library's");
    assert!(refuse_each(cache, |it| take(it, 7)) > 0);
    assert!(refuse_each(cache, |it| take(it, 8)) > 0);
    assert!(refuse_each(cache, |it| take(it, 9)) > 0);
    assert_eq!(refuse_each(cache, |it| it.list(&own())), 1);
    assert_eq!(refuse_each(charged, |it| it.snapshot()), 7, "two a list, and the store's block");
    let snapshots = || vec![charged().snapshot().unwrap(); 2];
    let restored =
        refuse_each(snapshots, |it| match Cache::restore(own(), 10, 1_000, it.pop().unwrap()) {
            Ok(cache) => Ok((cache.counts(), cache.bytes(), cache.bytes_of(&peer()))),
            Err(RestoreError::Cache(error)) => Err(error),
            Err(other) => panic!("{other:?}"),
        });
    assert!(restored > 20, "those of the library");
    assert_eq!(refuse_each(cache, |it| Ok(it.get(&digest(8)).copied())), 0);
    assert_eq!(refuse_each(cache, |it| Ok(it.cleanup(&[]))), 0);
    let mut waiting = cache();
    let Ok(Subscribed::Waiting(ticket)) = waiting.subscribe(&digest(9)) else {
        panic!("it is cached")
    };
    let cancelled = refusing(0, || waiting.cancel(&digest(9), ticket));
    assert_eq!(cancelled, (true, false), "it asks for no memory");
    let waits = |it: &mut Cache<_>| it.subscribe(&digest(9)).map(drop);
    assert!(refuse_each(cache, waits) > 0);
    let answered = |it: &mut Cache<_>| match it.subscribe(&digest(8))? {
        Subscribed::Cached(message) => Ok(*message),
        other => panic!("{other:?}"),
    };
    refuse_each(cache, answered);
    refuse_each(cache, |it| it.update_primary_peers(&[peer(), own(), peer()]).map(drop));
}

/// Lists, messages and primary keys are looked at without an allocation.
#[test]
fn looking_allocates_nothing() {
    let cache = cache();
    let mut list = Vec::with_capacity(10);
    let (found, was_refused) = refusing(0, || {
        let of = |key| cache.list_into(key, &mut list).map(|()| list.len());
        let listed: Result<usize, Error> = cache.primary_peers().iter().map(of).sum();
        (listed, cache.iter().map(|it| it.1.len()).sum::<usize>())
    });
    assert_eq!((found, was_refused), ((Ok(1), "cached".len()), false));
}

/// A message that the cache does not keep leaves its place to the next one: a repeat, or a stranger's message, does
/// not allocate after it.
#[test]
fn a_message_that_is_not_kept_leaves_its_place() {
    let mut cache = cache();
    let stranger = Key::from([3; 32]);
    assert_eq!((take(&mut cache, 9), take(&mut cache, 9)), (Ok(0), Ok(0)));
    for _ in 0..2 {
        assert_eq!(refusing(0, || take(&mut cache, 9)), (Ok(0), false), "a repeat");
        let taken = || cache.take(&stranger, &digest(7), 7, "message").map(|it| it.served.len());
        let (served, was_refused) = refusing(0, taken);
        assert!(served.is_ok() && !was_refused, "a stranger's");
    }
}

/// A node for which three tickets wait, and which has a message.
fn node() -> Node<Vec<u8>> {
    let mut node = Node::new(own(), Limits::default()).unwrap();
    node.update_primary_peers(&[own(), peer()]).unwrap();
    for _ in 0..3 {
        let _ticket = node.subscribe(&digest(7)).unwrap();
    }
    drop(node.payload_as(&own(), &digest(8), b"\0\0\0\x06cached".to_vec()).unwrap());
    node
}

const ABC: &[u8] = b"\0\0\0\x03abc";

/// Hands a payload that exists already to the node. Returns how many were served.
fn payload(node: &mut Node<Vec<u8>>, name: u8, payload: Vec<u8>) -> Result<Option<usize>, Error> {
    Ok(match node.payload_as(&peer(), &digest(name), payload)? {
        Received::Taken(message) => Some(message.served.len()),
        _ => None,
    })
}

#[test]
fn a_node_loses_no_payload() {
    let mut place = 0;
    loop {
        let (mut state, bytes) = (node(), ABC.to_vec());
        let (taken, was_refused) = refusing(place, || payload(&mut state, 7, bytes));
        match taken {
            Err(Error::Memory) => {
                assert_eq!(state.counters(&peer()).inserted, 0, "it is not counted");
                assert_eq!(payload(&mut state, 7, ABC.to_vec()), Ok(Some(3)));
            }
            other => assert_eq!(other, Ok(Some(3))),
        }
        assert_eq!(state.counters(&peer()).inserted, 1);
        if !was_refused {
            break;
        }
        place += 1;
    }
    assert!(place > 0);
    refuse_each(node, |it| it.update_primary_peers(&[peer()]).map(drop));
}

#[test]
fn a_node_loses_no_broadcast() {
    fn refuse_broadcasts<B: From<Vec<u8>> + AsRef<[u8]>>() {
        let make = || Node::<B>::new(own(), Limits::default()).unwrap();
        let sends =
            |it: &mut Node<B>| it.broadcast(Recipients::All, b"abc").map(|sent| sent.outcome);
        assert!(refuse_each(make, sends) > 1, "the payload, and the library's");
    }
    refuse_broadcasts::<Vec<u8>>();
    #[cfg(feature = "bytes")]
    refuse_broadcasts::<bytes::Bytes>();
}

#[test]
fn a_refused_message_comes_back() {
    let mut cache = Cache::new(own(), 10, 1_000).unwrap();
    cache.update_primary_peers(&[own()]).unwrap();
    let message = String::from("message");
    let refused = refusing(0, || cache.take_own(&digest(1), 7, message).map(drop)).0.unwrap_err();
    assert_eq!((refused.error, &*refused.message), (Error::Memory, "message"));
    assert_eq!(*cache.take_own(&digest(1), 7, refused.message).unwrap().message, "message");
}

fn message(stamp: u64) -> Message {
    Message { prev: stamp - 1, stamp, bytes: 36, handle: stamp }
}

/// A log that has room for two messages, and the handles of what left it.
fn log() -> (AuthorLog, Vec<u64>) {
    let (mut log, mut left) = (AuthorLog::new(200).unwrap(), Vec::new());
    for stamp in [5, 7] {
        assert_eq!(log.arrive(message(stamp), 9, &mut left), Ok(Arrived::Listed));
    }
    (log, left)
}

#[test]
fn a_log_loses_no_message() {
    assert_eq!(refuse_each(|| (), |()| AuthorLog::new(200).map(drop)), 1, "the library's");
    let arrives = |(log, left): &mut (AuthorLog, Vec<u64>)| {
        let before = (log.floor(), log.get(0), log.get(1), log.bytes(), left.len());
        let arrived = log.arrive(message(9), 9, left);
        let after = (log.floor(), log.get(0), log.get(1), log.bytes(), left.len());
        assert!(arrived.is_ok() || before == after);
        arrived.map(|it| (it, after, left.last().copied()))
    };
    let listed = (5, Some(message(7)), Some(message(9)), 200, 1);
    assert_eq!(arrives(&mut log()), Ok((Arrived::Listed, listed, Some(5))));
    assert!(refuse_each(log, arrives) > 0);
    assert_eq!(refuse_each(log, |it| it.0.report()), 1, "the spans");
}
