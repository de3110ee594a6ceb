//! What a change of the peer set keeps, and what it evicts.

mod support;

use broadcast_engine::Recipients;
use support::*;

#[tokio::test(start_paused = true)]
async fn the_messages_of_a_peer_that_left_are_evicted() {
    let nodes = Nodes::start(3, 0.0).await;
    let (alone, shared) = (TestMessage::digested("alone"), TestMessage::digested("shared"));
    nodes.broadcast(0, &alone);
    nodes.broadcast(0, &shared);
    nodes.broadcast(2, &shared);
    settle().await;
    assert!(nodes.has(1, &alone).await && nodes.has(1, &shared).await);
    nodes.tracker.track(1, &nodes.keys[1..]);
    settle().await;
    assert!(!nodes.has(1, &alone).await && nodes.has(1, &shared).await);
}

#[tokio::test(start_paused = true)]
async fn a_peer_is_kept_until_its_last_set_ages_out() {
    let nodes = Nodes::untracked(3, 0.0, 2).await;
    nodes.tracker.track(0, &nodes.keys);
    let (message, fresh) = (TestMessage::digested("before"), TestMessage::digested("overlap"));
    settle().await;
    nodes.broadcast(0, &message);
    settle().await;
    nodes.tracker.track(1, &nodes.keys[1..]);
    settle().await;
    assert!(nodes.has(1, &message).await);
    nodes.broadcast(0, &fresh);
    settle().await;
    assert!(nodes.has(1, &fresh).await);
    nodes.tracker.track(2, &nodes.keys[1..]);
    settle().await;
    assert!(!nodes.has(1, &message).await && !nodes.has(1, &fresh).await);
}

#[tokio::test(start_paused = true)]
async fn a_peer_that_is_not_primary_serves_waiters_and_is_not_cached() {
    let nodes = Nodes::untracked(3, 0.0, 1).await;
    nodes.tracker.track(0, &nodes.keys[1..]);
    settle().await;
    let message = TestMessage::digested("secondary");
    let waits = nodes.mailboxes[1].subscribe(message.digest());
    nodes.broadcast(0, &message);
    assert_eq!(waits.await, Ok(message.clone()));
    settle().await;
    assert!(!nodes.has(0, &message).await && !nodes.has(1, &message).await);
    assert_eq!(count(&nodes.metrics[1], "receive.dropped"), 1);
}

#[tokio::test(start_paused = true)]
async fn a_broadcast_before_the_start_is_cached_under_the_first_peer_set() {
    let (network, tracker) = (Network::new(0.0), Tracker::new(1));
    tracker.track(0, &[[1; 32]]);
    let (engine, mailbox) = TestEngine::new(config([1; 32], &tracker)).unwrap();
    let message = TestMessage::digested("queued before start");
    assert!(mailbox.broadcast(Recipients::All, message.clone()).accepted());
    let _handle = engine.start(network.join([1; 32]));
    assert_eq!(mailbox.get(message.digest()).await, Some(message));
}

#[tokio::test(start_paused = true)]
async fn an_engine_starts_before_the_first_peer_set() {
    let nodes = Nodes::untracked(2, 0.0, 1).await;
    let (before, after) = (TestMessage::digested("before"), TestMessage::digested("after"));
    nodes.broadcast(0, &before);
    settle().await;
    assert!(!nodes.has(0, &before).await && !nodes.has(1, &before).await);
    nodes.tracker.track(0, &nodes.keys);
    settle().await;
    nodes.broadcast(0, &after);
    settle().await;
    assert!(nodes.has(1, &after).await);
}
