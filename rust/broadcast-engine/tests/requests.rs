//! What becomes of requests: served, counted, dropped, or given up with the engine.

mod support;

use broadcast_engine::{
    Canceled, Config, Digest, Digested, End, Engine, Feedback, Fixed, Message, Recipients, Sender,
    Strategy,
};
use bytes::Bytes;
use std::future::Future;
use std::num::NonZeroUsize;
use std::sync::Arc;
use support::*;
use tokio::sync::{Semaphore, mpsc};

#[tokio::test(start_paused = true)]
async fn a_subscription_waits_for_an_absent_message() {
    let nodes = Nodes::start(2, 0.0).await;
    let message = TestMessage::digested("future message");
    let waiting = [0, 0, 1, 1].map(|it| nodes.mailboxes[it].subscribe(message.digest()));
    drop(nodes.mailboxes[0].subscribe(message.digest()));
    drop(nodes.mailboxes[1].subscribe(message.digest()));
    nodes.broadcast(0, &message);
    for waits in waiting {
        assert_eq!(waits.await.as_ref(), Ok(&message));
    }
    settle().await;
    for metrics in &nodes.metrics {
        let counted = ["success", "dropped"].map(|it| count(metrics, &format!("subscribe.{it}")));
        assert_eq!(counted, [2, 1]);
    }
}

#[tokio::test(start_paused = true)]
async fn dropped_subscriptions_are_cleaned_up() {
    let nodes = Nodes::start(1, 0.0).await;
    let (mailbox, metrics) = (&nodes.mailboxes[0], &nodes.metrics[0]);
    let missing = TestMessage::digested("never arrives");
    let (first, second) =
        (mailbox.subscribe(missing.digest()), mailbox.subscribe(missing.digest()));
    settle().await;
    assert_eq!(count(metrics, "waiters"), 1);
    drop(first);
    settle().await;
    assert_eq!(count(metrics, "waiters"), 1);
    drop(second);
    settle().await;
    assert_eq!(count(metrics, "waiters"), 0);
    assert_eq!(count(metrics, "subscribe.dropped"), 2);
    // A dropped subscription does not come back with the message, and a new one gets it.
    let anew = mailbox.subscribe(missing.digest());
    nodes.broadcast(0, &missing);
    assert_eq!(anew.await, Ok(missing));
    assert_eq!(count(metrics, "subscribe.success"), 1);
}

#[tokio::test(start_paused = true)]
async fn many_dropped_subscriptions_leave_nothing() {
    let nodes = Nodes::start(1, 0.0).await;
    let digest = |it: u32| TestMessage::digested(it.to_be_bytes()).digest();
    let waiting: Vec<_> = (0..40_000).map(|it| nodes.mailboxes[0].subscribe(digest(it))).collect();
    settle().await;
    assert_eq!(count(&nodes.metrics[0], "waiters"), 40_000);
    drop(waiting);
    settle().await;
    assert_eq!(count(&nodes.metrics[0], "waiters"), 0);
}

#[tokio::test(start_paused = true)]
async fn gets_are_counted() {
    let nodes = Nodes::start(1, 0.0).await;
    let message = TestMessage::digested("hello");
    assert!(!nodes.has(0, &message).await);
    nodes.broadcast(0, &message);
    assert!(nodes.has(0, &message).await);
    assert_eq!(count(&nodes.metrics[0], "get.success"), 1);
    assert_eq!(count(&nodes.metrics[0], "get.failure"), 1);
}

#[tokio::test(start_paused = true)]
async fn a_full_mailbox_backs_off_and_loses_nothing() {
    let (network, tracker) = (Network::new(0.0), Tracker::new(1));
    tracker.track(0, &[[1; 32]]);
    let mut small = config([1; 32], &tracker);
    small.mailbox_size = NonZeroUsize::MIN;
    let (engine, mailbox) = TestEngine::new(small).unwrap();
    let messages: Vec<_> = (0..4_u8).map(|it| TestMessage::digested([it])).collect();
    let told: Vec<_> =
        messages.iter().map(|it| mailbox.broadcast(Recipients::All, it.clone())).collect();
    assert_eq!(told, [Feedback::Ok, Feedback::Backoff, Feedback::Backoff, Feedback::Backoff]);
    let _handle = engine.start(network.join([1; 32]));
    for message in messages {
        assert_eq!(mailbox.get(message.digest()).await, Some(message));
    }
}

#[tokio::test(start_paused = true)]
async fn all_requests_are_replied_to_whatever_the_limits_are() {
    let message = TestMessage::digested("message");
    let len = message.encode().len() as u64;
    for mailbox_size in [NonZeroUsize::MIN, NonZeroUsize::MAX] {
        for deque_size in [0, 1, usize::MAX] {
            for byte_budget in [0, len - 1, len, u64::MAX] {
                let limited = fixed().mailbox_size(mailbox_size).deque_size(deque_size);
                let limited = limited.byte_budget(byte_budget);
                let (engine, mailbox) = Engine::<_, TestMessage, _, _>::new(limited).unwrap();
                let (_payloads, network) = mpsc::channel(1);
                let _handle = engine.start((Nowhere, network));
                let waits = mailbox.subscribe(message.digest());
                assert!(mailbox.broadcast(Recipients::All, message.clone()).accepted());
                assert_eq!(waits.await, Ok(message.clone()));
                let kept =
                    if deque_size > 0 && byte_budget >= len { vec![&message] } else { vec![] };
                assert_eq!(mailbox.get(message.digest()).await.as_ref(), kept.first().copied());
                assert_eq!(mailbox.list([1; 32]).await.unwrap().iter().collect::<Vec<_>>(), kept);
                assert_eq!(mailbox.snapshot().await.unwrap().messages.len(), kept.len());
            }
        }
    }
}

#[tokio::test(start_paused = true)]
async fn operations_after_the_end_do_not_panic() {
    for way in 0..4 {
        let nodes = Nodes::start(2, 0.0).await;
        let message = TestMessage::digested("test message");
        nodes.broadcast(0, &message);
        let waits = nodes.mailboxes[0].subscribe(TestMessage::digested("never").digest());
        settle().await;
        match way {
            0 => nodes.handles[0].abort(),
            1 => nodes.handles[0].stop(),
            2 => nodes.tracker.close(),
            _ => nodes.network.leave(&nodes.keys[0]),
        }
        settle().await;
        let mailbox = &nodes.mailboxes[0];
        assert_eq!(mailbox.broadcast(Recipients::All, message.clone()), Feedback::Closed);
        assert_eq!(waits.await, Err(Canceled::Ended));
        assert_eq!(mailbox.subscribe(message.digest()).await, Err(Canceled::Ended));
        assert_eq!(mailbox.get(message.digest()).await, None);
        let end = nodes.handles.into_iter().next().unwrap().await.ok();
        let ends = [None, Some(End::Stopped), Some(End::PeersClosed), Some(End::NetworkFailed)];
        assert_eq!(end, ends[way]);
    }
}

/// Computes a digest once the semaphore has a permit for it.
struct Gated(Arc<Semaphore>);

impl Strategy for Gated {
    fn digest<M: Message>(&self, message: M) -> impl Future<Output = Digested<M>> + Send {
        let gate = self.0.clone();
        async move {
            gate.acquire().await.unwrap().forget();
            Digested::new(message)
        }
    }
}

#[tokio::test(start_paused = true)]
async fn nothing_but_a_stop_is_taken_while_a_digest_is_computed() {
    let (network, tracker) = (Network::new(0.0), Tracker::new(1));
    tracker.track(0, &[[1; 32], [2; 32]]);
    let gate = Arc::new(Semaphore::new(0));
    let (engine, mailbox) =
        Engine::new(config_with([1; 32], &tracker, Gated(gate.clone()))).unwrap();
    let handle = engine.start(network.join([1; 32]));
    let mut peer = network.join([2; 32]).0;
    let message = TestMessage::digested("digested late");
    peer.send(Recipients::All, message.encode(), false);
    settle().await;
    let get = tokio::spawn(mailbox.get(message.digest()));
    settle().await;
    assert!(!get.is_finished());
    gate.add_permits(1);
    assert_eq!(get.await.unwrap(), Some(message.clone()));

    peer.send(Recipients::All, TestMessage::digested("never digested").encode(), false);
    settle().await;
    handle.stop();
    assert_eq!(handle.await.unwrap(), End::Stopped);
    assert_eq!(mailbox.get(message.digest()).await, None);
}

#[tokio::test(start_paused = true)]
async fn a_turn_looks_at_peer_sets_then_the_mailbox_then_the_network() {
    let (network, tracker) = (Network::new(0.0), Tracker::new(1));
    let (engine, mailbox) = TestEngine::new(config([1; 32], &tracker)).unwrap();
    let metrics = engine.metrics();
    let mut peer = network.join([2; 32]).0;
    let ends = network.join([1; 32]);
    let (own, received) = (TestMessage::digested("own"), TestMessage::digested("received"));
    peer.send(Recipients::All, received.encode(), false);
    settle().await;
    // All three sources are ready before the engine starts. The get comes before the payload, and the peer set
    // before both.
    assert!(mailbox.broadcast(Recipients::All, own.clone()).accepted());
    let get = mailbox.get(received.digest());
    tracker.track(0, &[[1; 32], [2; 32]]);
    let _handle = engine.start(ends);
    assert_eq!(get.await, None);
    settle().await;
    assert_eq!(mailbox.get(own.digest()).await, Some(own));
    assert_eq!(mailbox.get(received.digest()).await, Some(received));
    assert_eq!(count(&metrics, "receive.success"), 1);
}

#[tokio::test(start_paused = true)]
async fn a_dropped_get_is_counted_as_dropped() {
    let (network, tracker) = (Network::new(0.0), Tracker::new(1));
    let (engine, mailbox) = TestEngine::new(config([1; 32], &tracker)).unwrap();
    let metrics = engine.metrics();
    drop(mailbox.get([7; 32]));
    let _handle = engine.start(network.join([1; 32]));
    settle().await;
    assert_eq!(count(&metrics, "get.dropped"), 1);
    assert_eq!(count(&metrics, "get.failure"), 0);
}

/// A message that computes its digest when it is decoded.
#[derive(Debug, PartialEq)]
struct Whole(Bytes);

impl Message for Whole {
    type Digest = Digest;
    type Config = ();
    type Error = ();

    fn encode(&self) -> Bytes {
        self.0.clone()
    }

    fn decode(bytes: Bytes, (): &()) -> Result<Whole, ()> {
        Ok(Whole(bytes))
    }

    fn decode_digested(bytes: Bytes, (): &()) -> Result<(Whole, Option<Digest>), ()> {
        let digest = Digest::sha256(&bytes);
        Ok((Whole(bytes), Some(digest)))
    }

    fn digest(&self) -> Digest {
        Digest::sha256(&self.0)
    }
}

#[tokio::test(start_paused = true)]
async fn a_digest_that_was_decoded_is_not_computed_again() {
    let never = Gated(Arc::new(Semaphore::new(0)));
    let peers = Fixed::new([[1; 32], [2; 32]]);
    let (engine, mailbox) = Engine::new(Config::new([1; 32], peers, ()).strategy(never)).unwrap();
    let (payloads, network) = mpsc::channel(1);
    let _handle = engine.start((Nowhere, network));
    let message = Digested::new(Whole(Bytes::from_static(b"whole")));
    let waits = mailbox.subscribe(message.digest());
    payloads.try_send(([2; 32], message.encode())).unwrap();
    assert_eq!(waits.await, Ok(message));
}
