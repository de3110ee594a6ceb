//! What an engine allocates, and what becomes of it where its cache is refused an allocation: what was refused changes
//! nothing, and the engine goes on.

#![allow(unsafe_code, reason = "an allocator")]

use broadcast_engine::{
    Canceled, Config, Digest, Digested, Engine, Error, Fixed, Mailbox, Message, Recipients, Sender,
};
use bytes::Bytes;
use std::alloc::{GlobalAlloc, Layout, System};
use std::cell::Cell;
use std::future::{Future, pending};
use std::pin::{Pin, pin};
use std::ptr::null_mut;
use std::sync::Arc;
use std::sync::atomic::{AtomicUsize, Ordering::Relaxed};
use std::task::{Context, Poll, Waker};
use tokio::sync::mpsc;

/// The allocator of this test, which counts what a thread has allocated, and refuses one of its allocations.
struct Refusing;

thread_local! {
    /// How many allocations pass before the one that is refused.
    static LEFT: Cell<Option<usize>> = const { Cell::new(None) };
    /// The bytes that are allocated.
    static BYTES: Cell<usize> = const { Cell::new(0) };
}

fn is_refused() -> bool {
    let left = LEFT.get();
    LEFT.set(left.and_then(|it| it.checked_sub(1)));
    left == Some(0)
}

// SAFETY: this is the system's allocator, but for allocations that are refused.
unsafe impl GlobalAlloc for Refusing {
    unsafe fn alloc(&self, layout: Layout) -> *mut u8 {
        match is_refused() {
            true => null_mut(),
            false => {
                BYTES.set(BYTES.get().wrapping_add(layout.size()));
                // SAFETY: as asked of the caller.
                unsafe { System.alloc(layout) }
            }
        }
    }

    unsafe fn dealloc(&self, at: *mut u8, layout: Layout) {
        BYTES.set(BYTES.get().wrapping_sub(layout.size()));
        // SAFETY: as asked of the caller.
        unsafe { System.dealloc(at, layout) }
    }
}

#[global_allocator]
static ALLOCATOR: Refusing = Refusing;

type Key = [u8; 32];

/// A message that encodes itself without an allocation.
#[derive(Debug, PartialEq)]
struct Text(Bytes);

impl Message for Text {
    type Digest = Digest;
    type Config = ();
    type Error = ();

    fn encode(&self) -> Bytes {
        self.0.clone()
    }

    fn decode(bytes: Bytes, (): &()) -> Result<Text, ()> {
        Ok(Text(bytes))
    }

    fn digest(&self) -> Digest {
        Digest::sha256(&self.0)
    }
}

fn hello() -> Digested<Text> {
    Digested::new(Text(Bytes::from_static(b"hello")))
}

/// Counts what is sent.
struct Sent(Arc<AtomicUsize>);

impl Sender for Sent {
    type PublicKey = Key;

    fn send(&mut self, _: Recipients<Key>, _: Bytes, _: bool) {
        self.0.fetch_add(1, Relaxed);
    }
}

/// An engine that is polled by hand, and has its peers.
struct Run {
    engine: Pin<Box<dyn Future<Output = broadcast_engine::End>>>,
    mailbox: Mailbox<Key, Text>,
    sent: Arc<AtomicUsize>,
    payloads: mpsc::Sender<(Key, Bytes)>,
}

fn poll<F: Future>(future: F) -> Poll<F::Output> {
    pin!(future).poll(&mut Context::from_waker(Waker::noop()))
}

impl Run {
    fn new() -> Run {
        Run::of(256, 16)
    }

    /// An engine with lists of so many messages, of peers up to this one.
    fn of(deque_size: usize, peers: u8) -> Run {
        let peers: Vec<Key> = (1..=peers).map(|it| [it; 32]).collect();
        let config = Config::new([1; 32], Fixed::new(peers), ()).deque_size(deque_size);
        let (engine, mailbox) = Engine::new(config).unwrap();
        let (sent, (payloads, network)) = (Arc::new(AtomicUsize::new(0)), mpsc::channel(1));
        let engine = Box::pin(engine.run((Sent(sent.clone()), network), pending()));
        let mut run = Run { engine, mailbox, sent, payloads };
        run.step(None);
        run
    }

    /// Lets the engine handle what there is. The allocation after so many is refused.
    fn step(&mut self, left: Option<usize>) {
        LEFT.set(left);
        assert!(self.engine.as_mut().poll(&mut Context::from_waker(Waker::noop())).is_pending());
        let was_refused = LEFT.replace(None).is_none();
        assert!(was_refused || left.is_none());
    }

    fn broadcast(&mut self, left: Option<usize>) {
        assert!(self.mailbox.broadcast(Recipients::All, hello()).accepted());
        self.step(left);
    }
}

#[test]
fn a_list_without_memory_is_no_empty_list() {
    let mut run = Run::new();
    run.broadcast(None);
    let list = run.mailbox.list([1; 32]);
    run.step(Some(0));
    assert_eq!(poll(list), Poll::Ready(Err(Canceled::Failed(Error::Memory))));
    let list = run.mailbox.list([1; 32]);
    run.step(None);
    assert_eq!(poll(list), Poll::Ready(Ok(vec![hello()])));
}

#[test]
fn a_snapshot_without_memory_is_no_empty_snapshot() {
    let mut run = Run::new();
    run.broadcast(None);
    let snapshot = run.mailbox.snapshot();
    run.step(Some(0));
    assert_eq!(poll(snapshot), Poll::Ready(Err(Canceled::Failed(Error::Memory))));
    let snapshot = run.mailbox.snapshot();
    run.step(None);
    let Poll::Ready(Ok(snapshot)) = poll(snapshot) else { panic!("no snapshot") };
    assert_eq!((snapshot.lists[0].1.len(), snapshot.messages.len()), (1, 1));
}

/// The first allocation is the engine's own.
#[test]
fn a_subscription_without_memory_does_not_wait() {
    let mut run = Run::new();
    let mut waits = run.mailbox.subscribe(hello().digest());
    run.step(Some(1));
    assert_eq!(waits.try_recv(), Err(Canceled::Failed(Error::Memory)));
    let mut waits = run.mailbox.subscribe(hello().digest());
    run.step(None);
    run.broadcast(None);
    assert_eq!(waits.try_recv(), Ok(Some(hello())));
}

#[test]
fn a_broadcast_without_memory_is_neither_kept_nor_sent() {
    let mut run = Run::new();
    let mut waits = run.mailbox.subscribe(hello().digest());
    run.step(None);
    run.broadcast(Some(0));
    assert_eq!((run.sent.load(Relaxed), waits.try_recv()), (0, Ok(None)));
    let get = run.mailbox.get(hello().digest());
    run.step(None);
    assert_eq!(poll(get), Poll::Ready(None));
    run.broadcast(None);
    assert_eq!(run.sent.load(Relaxed), 1);
    assert_eq!(waits.try_recv(), Ok(Some(hello())));
}

/// The README's formula of memory has this number. Each list is filled, and then goes through all its places twice.
#[test]
fn a_cached_message_costs_at_most_1_000_bytes_beside_its_encoding() {
    for (peers, deque_size, len) in
        [(1, 256, 100), (16, 256, 100), (1, 2_000, 100), (1, 256, 5_000)]
    {
        let mut run = Run::of(deque_size, peers);
        let before = BYTES.get();
        for peer in 1..=peers {
            for number in 0..3 * deque_size as u64 {
                let mut payload = vec![peer; len];
                payload[..8].copy_from_slice(&number.to_be_bytes());
                run.payloads.try_send(([peer; 32], payload.into())).unwrap();
                run.step(None);
            }
        }
        let messages = usize::from(peers) * deque_size;
        let beside = BYTES.get() - before - messages * len;
        assert!(beside <= 1_000 * messages, "{beside} bytes for {messages} messages");
    }
}
