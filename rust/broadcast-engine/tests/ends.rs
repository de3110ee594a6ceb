//! Engines that are flooded, stopped or dropped: nobody is starved, and nobody waits for an engine that is gone.

mod support;

use broadcast_engine::{
    Canceled, Config, End, Engine, Feedback, Fixed, Message, Provider, Recipients, Sender,
    Sequential,
};
use bytes::Bytes;
use std::future::{Future, pending};
use std::panic::{AssertUnwindSafe, catch_unwind};
use std::pin::pin;
use std::sync::Arc;
use std::sync::atomic::{AtomicUsize, Ordering::Relaxed};
use std::task::{Context, Poll, Waker};
use support::*;
use tokio::sync::{mpsc, oneshot};

fn poll<F: Future>(future: F) -> Poll<F::Output> {
    pin!(future).poll(&mut Context::from_waker(Waker::noop()))
}

/// A sender that makes a new request for each message sent, so the engine does not run out of requests until so many
/// are sent.
struct Flood {
    mailbox: Arc<std::sync::OnceLock<TestMailbox>>,
    sent: Arc<AtomicUsize>,
    ends_at: Arc<AtomicUsize>,
}

impl Sender for Flood {
    type PublicKey = Key;

    fn send(&mut self, _: Recipients<Key>, _: Bytes, _: bool) {
        if self.sent.fetch_add(1, Relaxed) + 1 < self.ends_at.load(Relaxed) {
            let more = TestMessage::digested("more");
            let _ = self.mailbox.get().unwrap().broadcast(Recipients::All, more);
        }
    }
}

/// An engine that always has a request, and its payloads.
struct Flooded {
    engine: Engine<Key, TestMessage, Fixed<Key>, Sequential>,
    mailbox: TestMailbox,
    flood: Flood,
    payloads: mpsc::Sender<(Key, Bytes)>,
    network: mpsc::Receiver<(Key, Bytes)>,
}

fn flooded() -> Flooded {
    let (engine, mailbox) = Engine::new(fixed()).unwrap();
    let ends_at = Arc::new(AtomicUsize::new(usize::MAX));
    let flood = Flood { mailbox: Arc::default(), sent: Arc::default(), ends_at };
    let _ = flood.mailbox.set(mailbox.clone());
    assert_eq!(mailbox.broadcast(Recipients::All, TestMessage::digested("first")), Feedback::Ok);
    let (payloads, network) = mpsc::channel(1_000);
    Flooded { engine, mailbox, flood, payloads, network }
}

/// A poll handles few events, also if there are always more: so a runtime can end or delay the task.
#[test]
fn a_flooded_engine_yields() {
    let Flooded { engine, flood, payloads: _payloads, network, .. } = flooded();
    let sent = flood.sent.clone();
    let mut run = pin!(engine.run((flood, network), pending()));
    for polls in 1..=100 {
        assert!(run.as_mut().poll(&mut Context::from_waker(Waker::noop())).is_pending());
        assert!(sent.load(Relaxed) <= polls * 64, "{} requests", sent.load(Relaxed));
    }
    assert!(sent.load(Relaxed) >= 100 * 32);
}

/// Payloads wait as long as there are requests, and none is lost.
#[test]
fn payloads_wait_for_a_flood_to_end() {
    let Flooded { engine, mailbox, flood, payloads, network } = flooded();
    let (metrics, sent, ends_at) = (engine.metrics(), flood.sent.clone(), flood.ends_at.clone());
    for number in 0..10_u8 {
        let payload = TestMessage::digested([number]).encode();
        payloads.try_send(([2; 32], payload)).unwrap();
    }
    let mut run = pin!(engine.run((flood, network), pending()));
    let mut step = || run.as_mut().poll(&mut Context::from_waker(Waker::noop()));
    while sent.load(Relaxed) < 1_000 {
        assert!(step().is_pending());
        assert_eq!(count(&metrics, "receive.success"), 0);
    }
    ends_at.store(1_100, Relaxed);
    for _ in 0..4 {
        assert!(step().is_pending());
    }
    assert_eq!((sent.load(Relaxed), count(&metrics, "receive.success")), (1_100, 10));
    drop(mailbox);
}

/// On a runtime of one thread a task that floods itself is aborted.
#[tokio::test]
async fn a_flooded_engine_is_aborted() {
    let Flooded { engine, mailbox, flood, payloads: _payloads, network } = flooded();
    let handle = engine.start((flood, network));
    tokio::task::yield_now().await;
    handle.abort();
    assert!(handle.await.unwrap_err().is_cancelled());
    assert_eq!(mailbox.get([0; 32]).await, None);
}

async fn all_is_closed(mailbox: &TestMailbox) {
    let message = TestMessage::digested("late");
    assert_eq!(mailbox.broadcast(Recipients::All, message.clone()), Feedback::Closed);
    assert_eq!(mailbox.subscribe(message.digest()).await, Err(Canceled::Ended));
    assert_eq!(mailbox.get(message.digest()).await, None);
    assert_eq!(mailbox.list([1; 32]).await, Err(Canceled::Ended));
    assert!(mailbox.deliveries(1).next().await.is_none());
}

#[tokio::test(start_paused = true)]
async fn what_is_shown_of_a_started_engine_is_its_own() {
    let (engine, mailbox) = Engine::<_, TestMessage, _, _>::new(fixed()).unwrap();
    let (_payloads, network) = mpsc::channel(1);
    let handle = engine.start((Nowhere, network));
    let shown = format!("{handle:?} {:?} {mailbox:?}", handle.stopper());
    assert_eq!(shown, "Handle { is_finished: false, .. } Stopper { .. } Mailbox { .. }");
}

#[tokio::test(start_paused = true)]
async fn a_mailbox_of_a_dropped_engine_is_closed() {
    let (engine, mailbox) = TestEngine::new(config([1; 32], &Tracker::new(1))).unwrap();
    let waits = mailbox.subscribe([7; 32]);
    drop(engine);
    assert_eq!(waits.await, Err(Canceled::Ended));
    all_is_closed(&mailbox).await;
}

#[tokio::test(start_paused = true)]
async fn a_mailbox_of_an_engine_that_is_aborted_before_its_first_poll_is_closed() {
    let (network, tracker) = (Network::new(0.0), Tracker::new(1));
    let (engine, mailbox) = TestEngine::new(config([1; 32], &tracker)).unwrap();
    let waits = mailbox.subscribe([7; 32]);
    let handle = engine.start(network.join([1; 32]));
    handle.abort();
    assert!(handle.await.unwrap_err().is_cancelled());
    assert_eq!(waits.await, Err(Canceled::Ended));
    all_is_closed(&mailbox).await;
}

/// A provider that never has a peer set.
struct Never;

impl Provider for Never {
    type PublicKey = Key;

    async fn next(&mut self) -> Option<Vec<Key>> {
        pending().await
    }
}

#[tokio::test(start_paused = true)]
async fn an_engine_stops_while_it_waits_for_its_first_peer_set() {
    let config = Config::new([1; 32], Never, 0);
    let (engine, mailbox) = Engine::<_, TestMessage, _, _>::new(config).unwrap();
    let handle = engine.start(Network::new(0.0).join([1; 32]));
    settle().await;
    assert!(!handle.is_finished());
    handle.stopper().stop();
    assert_eq!(handle.await.unwrap(), End::Stopped);
    all_is_closed(&mailbox).await;
}

#[tokio::test(start_paused = true)]
async fn an_engine_ends_with_its_last_mailbox() {
    let (network, tracker) = (Network::new(0.0), Tracker::new(1));
    let (engine, mailbox) = TestEngine::new(config([1; 32], &tracker)).unwrap();
    let handle = engine.start(network.join([1; 32]));
    let (other, deliveries) = (mailbox.clone(), mailbox.deliveries(1));
    let waits = mailbox.subscribe([7; 32]);
    drop((mailbox, other));
    settle().await;
    assert!(!handle.is_finished());
    drop(deliveries);
    assert_eq!(handle.await.unwrap(), End::MailboxesDropped);
    assert_eq!(waits.await, Err(Canceled::Ended));
}

/// Any executor polls the future, and its stop is any future.
#[test]
fn an_engine_needs_no_runtime() {
    let (engine, mailbox) = Engine::<_, TestMessage, _, _>::new(fixed()).unwrap();
    let (stop, stopped) = oneshot::channel::<()>();
    let (payloads, network) = mpsc::channel(1);
    let mut run = pin!(engine.run((Nowhere, network), async { drop(stopped.await) }));
    let mut step = || run.as_mut().poll(&mut Context::from_waker(Waker::noop()));
    let message = TestMessage::digested("hello");
    let mut waits = mailbox.subscribe(message.digest());
    assert_eq!(*waits.digest(), message.digest());
    assert!(step().is_pending());
    assert_eq!(waits.try_recv(), Ok(None));
    payloads.try_send(([2; 32], message.encode())).unwrap();
    assert!(step().is_pending());
    assert_eq!(waits.try_recv(), Ok(Some(message)));
    assert_eq!(waits.try_recv(), Ok(None));
    drop(stop);
    assert_eq!(step(), Poll::Ready(End::Stopped));
}

#[tokio::test(start_paused = true)]
async fn deliveries_are_the_messages_that_are_cached_anew() {
    let nodes = Nodes::start(2, 0.0).await;
    let [mut all, mut few, mut one] =
        [usize::MAX, 3, 0].map(|it| nodes.mailboxes[1].deliveries(it));
    let messages: Vec<_> = (0..5_u8).map(|it| TestMessage::digested([it])).collect();
    for message in messages.iter().chain(&messages) {
        nodes.broadcast(0, message);
        settle().await;
    }
    nodes.handles[1].stop();
    let mut delivered = Vec::new();
    while let Some(message) = all.next().await {
        delivered.push(message);
    }
    assert_eq!((delivered, all.missed()), (messages.clone(), 0));
    assert_eq!((few.next().await, few.missed()), (Some(messages[0].clone()), 2));
    assert_eq!((one.next().await, one.missed()), (Some(messages[0].clone()), 4));
}

/// Neither the mailbox's own code nor a drop of the engine panics after a panic of the message's code.
#[test]
fn a_panic_of_a_message_closes_the_mailbox() {
    #[derive(Debug)]
    struct Bomb;
    impl Message for Bomb {
        type Digest = Key;
        type Config = ();
        type Error = ();
        fn encode(&self) -> Bytes {
            panic!("a bomb")
        }
        fn decode(_: Bytes, (): &()) -> Result<Bomb, ()> {
            Ok(Bomb)
        }
        fn digest(&self) -> Key {
            [0; 32]
        }
    }
    let config = Config::new([1; 32], Fixed::new([[1; 32]]), ());
    let (engine, mailbox) = Engine::<_, Bomb, _, _>::new(config).unwrap();
    let _ = mailbox.broadcast(Recipients::All, Bomb);
    let (_payloads, network) = mpsc::channel(1);
    let run = engine.run((Nowhere, network), pending());
    assert!(catch_unwind(AssertUnwindSafe(|| poll(run))).is_err());
    assert_eq!(mailbox.broadcast(Recipients::All, Bomb), Feedback::Closed);
}

/// The page of `prometheus` has the numbers of a snapshot.
#[cfg(feature = "prometheus")]
#[tokio::test(start_paused = true)]
async fn a_page_of_prometheus_has_the_counters() {
    let nodes = Nodes::start(2, 0.0).await;
    nodes.broadcast(0, &TestMessage::digested("hello"));
    settle().await;
    let registry = prometheus::Registry::new_custom(Some("node".into()), None).unwrap();
    nodes.metrics[1].register(&registry).unwrap();
    assert!(nodes.metrics[0].register(&registry).is_err());
    let page = prometheus::TextEncoder::new().encode_to_string(&registry.gather()).unwrap();
    for line in [
        format!("node_peer_total{{sequencer=\"{}\"}} 1", "01".repeat(32)),
        "node_peer_total{sequencer=\"other\"} 0".to_owned(),
        "node_receive_total{status=\"Success\"} 1".to_owned(),
        "node_get_total{status=\"Dropped\"} 0".to_owned(),
        "node_waiters 0".to_owned(),
        "node_cached 1".to_owned(),
    ] {
        assert!(page.lines().any(|it| it == line), "no {line} in\n{page}");
    }
}
