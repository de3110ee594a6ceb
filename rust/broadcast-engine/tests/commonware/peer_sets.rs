//! The first peer set, and the subscription by which an engine learns it.

use crate::adapter::End;
use crate::cw::{Broadcaster, Recipients};
use crate::world::*;
use tokio::time::timeout;

/// `test_initial_latest_peer_set_blocks_sender_not_in_latest_primary`
#[tokio::test(start_paused = true)]
async fn a_secondary_peer_of_the_first_set_is_not_cached() {
    let world = World::new(3, 1);
    world.oracle.track_with(0, &world.keys[1..], &world.keys[..1]);
    let (nodes, message) = (world.start().await, text("secondary"));
    nodes[0].send(&message);
    arrive().await;
    assert!(!nodes[0].has(&message).await && !nodes[1].has(&message).await);
    assert_eq!(nodes[1].metrics.snapshot().receive.dropped, 1);
}

/// `test_broadcast_queued_before_start_respects_initial_latest_primary`
#[tokio::test(start_paused = true)]
async fn a_broadcast_that_is_queued_before_the_start_is_cached() {
    let world = World::new(1, 1);
    world.oracle.track(0, &world.keys);
    let ((engine, mailbox), message) = (world.engine(0), text("queued"));
    assert!(mailbox.broadcast(Recipients::All, message.clone()).accepted());
    engine.start(world.network.join(world.keys[0]));
    let cached = mailbox.get(message.digest()).await.unwrap();
    assert_eq!(cached.inner(), message.inner());
}

/// `test_engine_starts_before_initial_peer_set_and_delivers_after_tracking`
#[tokio::test(start_paused = true)]
async fn an_engine_runs_before_there_is_a_peer_set() {
    let world = World::new(2, 1);
    let (nodes, before, after) = (world.start().await, text("before"), text("after"));
    nodes[0].send(&before);
    arrive().await;
    assert!(!nodes[0].has(&before).await && !nodes[1].has(&before).await);
    world.track(0, &world.keys).await;
    nodes[0].send(&after);
    arrive().await;
    assert!(nodes[1].has(&after).await);
}

#[tokio::test(start_paused = true)]
async fn an_engine_subscribes_once() {
    let world = World::new(1, 1);
    world.oracle.track(0, &world.keys);
    let (engine, mailbox) = world.engine(0);
    for number in 0..1_200 {
        assert!(mailbox.broadcast(Recipients::All, text(number.to_string())).accepted());
    }
    let metrics = engine.metrics();
    engine.start(world.network.join(world.keys[0]));
    for number in 1_200 - LISTED..1_200 {
        assert!(mailbox.get(text(number.to_string()).digest()).await.is_some());
    }
    world.track(1, &[]).await;
    assert_eq!((world.oracle.subscribed(), metrics.snapshot().cached), (1, 0));
}

/// The oracle is not run, so it never replies.
#[tokio::test(start_paused = true)]
async fn an_engine_that_still_subscribes_can_be_stopped() {
    let (oracle, _never_run) = Oracle::new(1);
    let world = World { oracle, ..World::new(1, 1) };
    let (node, message) = (world.start_one(0), text("queued"));
    node.send(&message);
    arrive().await;
    assert!(!node.handle.is_finished());
    node.handle.stop();
    assert_eq!(timeout(A_MOMENT, node.handle).await.unwrap().unwrap(), End::Stopped);
    assert!(!node.mailbox.broadcast(Recipients::All, message).accepted());
}
