//! How messages spread, and how long they are kept.

mod support;

use broadcast_engine::{Digested, Feedback, Message, Recipients, Sender};
use std::time::Duration;
use support::*;
use tokio::time::timeout;

/// Enough time for a cached message to come.
const A_JIFFY: Duration = Duration::from_millis(10);

#[tokio::test(start_paused = true)]
async fn a_broadcast_reaches_all_peers() {
    let nodes = Nodes::start(4, 0.0).await;
    let message = TestMessage::digested("hello world test message");
    let subscriptions: Vec<_> =
        nodes.mailboxes.iter().map(|it| it.subscribe(message.digest())).collect();
    nodes.broadcast(0, &message);
    for subscription in subscriptions {
        assert_eq!(subscription.await, Ok(message.clone()));
    }
}

#[tokio::test(start_paused = true)]
async fn a_node_gets_its_own_broadcast() {
    let nodes = Nodes::start(1, 0.0).await;
    let message = TestMessage::digested("hello world");
    assert!(!nodes.has(0, &message).await);
    let before = nodes.mailboxes[0].subscribe(message.digest());
    nodes.broadcast(0, &message);
    assert_eq!(before.await, Ok(message.clone()));
    assert!(nodes.has(0, &message).await);
    assert_eq!(nodes.mailboxes[0].subscribe(message.digest()).await, Ok(message));
}

#[tokio::test(start_paused = true)]
async fn replies_share_one_message() {
    let nodes = Nodes::start(1, 0.0).await;
    let message = TestMessage::digested("one");
    nodes.broadcast(0, &message);
    let (first, second) =
        (nodes.mailboxes[0].get(message.digest()), nodes.mailboxes[0].get(message.digest()));
    let (first, second) = (first.await.unwrap(), second.await.unwrap());
    assert!(std::ptr::eq(first.inner(), message.inner()));
    assert!(std::ptr::eq(second.inner(), message.inner()));
}

#[tokio::test(start_paused = true)]
async fn a_message_gets_through_a_lossy_network() {
    let nodes = Nodes::start(10, 0.9).await;
    let message = TestMessage::digested("hello world test message");
    for round in 0..200 {
        nodes.broadcast(0, &message);
        settle().await;
        let mut arrived = 0;
        for mailbox in &nodes.mailboxes {
            let waits = timeout(A_JIFFY, mailbox.subscribe(message.digest())).await;
            arrived += usize::from(waits.is_ok());
        }
        if arrived == nodes.keys.len() {
            assert!(round > 0, "nothing was lost");
            return;
        }
    }
    panic!("not all have it");
}

#[tokio::test(start_paused = true)]
async fn a_cached_message_comes_at_once() {
    let nodes = Nodes::start(2, 0.0).await;
    let message = TestMessage::digested("cached message");
    nodes.broadcast(0, &message);
    settle().await;
    let found = timeout(A_JIFFY, nodes.mailboxes[1].subscribe(message.digest())).await;
    assert_eq!(found, Ok(Ok(message)));
}

#[tokio::test(start_paused = true)]
async fn the_oldest_message_of_a_peer_is_evicted() {
    let nodes = Nodes::start(2, 0.0).await;
    let messages: Vec<_> =
        (0..=CACHE_SIZE).map(|it| TestMessage::digested(format!("message {it}"))).collect();
    messages.iter().for_each(|it| nodes.broadcast(0, it));
    settle().await;
    for message in &messages[1..] {
        assert_eq!(nodes.mailboxes[1].subscribe(message.digest()).await.as_ref(), Ok(message));
    }
    let evicted = nodes.mailboxes[1].subscribe(messages[0].digest());
    assert!(timeout(A_JIFFY, evicted).await.is_err());
    let listed = nodes.mailboxes[1].list(nodes.keys[0]).await.unwrap();
    assert_eq!(listed, messages[1..].iter().rev().cloned().collect::<Vec<_>>());
}

#[tokio::test(start_paused = true)]
async fn a_message_is_kept_until_its_last_list_drops_it() {
    let nodes = Nodes::start(3, 0.0).await;
    let message = TestMessage::digested("dup");
    nodes.broadcast(0, &message);
    nodes.broadcast(2, &message);
    settle().await;
    for (node, is_kept) in [(0, true), (2, false)] {
        for i in 0..CACHE_SIZE {
            nodes.broadcast(node, &TestMessage::digested(format!("{node} {i}")));
        }
        settle().await;
        assert_eq!(nodes.has(1, &message).await, is_kept);
    }
}

#[tokio::test(start_paused = true)]
async fn the_first_message_of_a_digest_stays() {
    let nodes = Nodes::start(3, 0.0).await;
    let of = |commitment: &'static str| -> Digested<TestMessage> {
        TestMessage { commitment: commitment.into(), content: "content".into() }.into()
    };
    let (first, second) = (of("1"), of("2"));
    assert_eq!(first.digest(), second.digest());
    nodes.broadcast(0, &first);
    settle().await;
    nodes.broadcast(2, &second);
    settle().await;
    nodes.tracker.track(1, &nodes.keys[1..]);
    settle().await;
    for node in 1..3 {
        assert!(nodes.has(node, &first).await);
    }
}

#[tokio::test(start_paused = true)]
async fn the_bytes_of_a_peer_are_bounded() {
    let nodes = Nodes::start(2, 0.0).await;
    // Each is charged 2 * (4 + 60,000) bytes: 8 fit into 1 MiB.
    let messages: Vec<_> = (0..9).map(|it| TestMessage::digested(vec![it; 60_000])).collect();
    messages.iter().for_each(|it| nodes.broadcast(0, it));
    settle().await;
    assert!(!nodes.has(1, &messages[0]).await);
    for message in &messages[1..] {
        assert!(nodes.has(1, message).await);
    }
}

#[tokio::test(start_paused = true)]
async fn only_recipients_get_a_message() {
    let nodes = Nodes::start(4, 0.0).await;
    let (one, some) = (TestMessage::digested("one"), TestMessage::digested("some"));
    let to_one = Recipients::One(nodes.keys[1]);
    assert_eq!(nodes.mailboxes[0].broadcast(to_one, one.clone()), Feedback::Ok);
    let to_some = Recipients::Some(vec![nodes.keys[1], nodes.keys[3]]);
    assert_eq!(nodes.mailboxes[0].broadcast(to_some, some.clone()), Feedback::Ok);
    settle().await;
    for (node, expected) in [(0, (true, true)), (1, (true, true)), (2, (false, false))] {
        assert_eq!((nodes.has(node, &one).await, nodes.has(node, &some).await), expected);
    }
    assert!(nodes.has(3, &some).await);
}

#[tokio::test(start_paused = true)]
async fn malformed_payloads_do_not_break_valid_traffic() {
    let nodes = Nodes::start(2, 0.0).await;
    let (mut attacker, _receiver) = nodes.network.join([9; 32]);
    for garbage in [&[0xff][..], &[], &[0xff; 8], &[0, 0, 0, 0, 0, 0, 0, 0, 0]] {
        attacker.send(Recipients::All, garbage.to_vec().into(), false);
    }
    settle().await;
    let message = TestMessage::digested("valid after malformed");
    nodes.broadcast(0, &message);
    assert_eq!(nodes.mailboxes[1].subscribe(message.digest()).await, Ok(message));
    let metrics = &nodes.metrics[1];
    assert_eq!(count(metrics, "receive.invalid"), 4);
    assert_eq!(count(metrics, "receive.success"), 1);
    assert_eq!(payloads_of(metrics, &nodes.keys[0]), Some(1));
}

#[tokio::test(start_paused = true)]
async fn payloads_are_counted_by_their_sender_and_what_became_of_them() {
    let (network, tracker) = (Network::new(0.0), Tracker::new(1));
    tracker.track(0, &[[5; 32]]);
    let (engine, _mailbox) = TestEngine::new(config([1; 32], &tracker)).unwrap();
    let metrics = engine.metrics();
    let _handle = engine.start(network.join([1; 32]));
    let (mut primary, mut other) = (network.join([5; 32]).0, network.join([6; 32]).0);
    let to = || Recipients::One([1; 32]);
    let message = TestMessage::digested("A");
    primary.send(to(), message.encode(), false);
    primary.send(to(), message.encode(), false);
    other.send(to(), message.encode(), false);
    primary.send(to(), vec![0xff].into(), false);
    settle().await;
    assert_eq!((payloads_of(&metrics, &[5; 32]), payloads_of(&metrics, &[6; 32])), (Some(2), None));
    let stats = metrics.snapshot();
    let receive = (stats.receive.success, stats.receive.dropped, stats.receive.invalid);
    assert_eq!((stats.other_peers, receive), (1, (1, 2, 1)));
}

/// The counter of a key goes with the key, and keys that are in no peer set have none.
#[tokio::test(start_paused = true)]
async fn only_primary_peers_have_counters() {
    let (network, tracker) = (Network::new(0.0), Tracker::new(1));
    tracker.track(0, &[[5; 32], [6; 32]]);
    let (engine, _mailbox) = TestEngine::new(config([1; 32], &tracker)).unwrap();
    let metrics = engine.metrics();
    let _handle = engine.start(network.join([1; 32]));
    settle().await;
    for stranger in 0..1_000_u32 {
        let mut key = [7; 32];
        key[..4].copy_from_slice(&stranger.to_be_bytes());
        network.hand(&[1; 32], key, TestMessage::digested("A").encode());
    }
    network.hand(&[1; 32], [5; 32], TestMessage::digested("B").encode());
    settle().await;
    assert_eq!((metrics.snapshot().peers.len(), metrics.snapshot().other_peers), (2, 1_000));
    assert_eq!(payloads_of(&metrics, &[5; 32]), Some(1));
    tracker.track(1, &[[6; 32]]);
    settle().await;
    assert_eq!((metrics.snapshot().peers.len(), metrics.snapshot().other_peers), (1, 1_001));
}
