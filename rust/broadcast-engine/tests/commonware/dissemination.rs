//! How messages get from node to node, and to callers.

use crate::cw::{Broadcaster, IoBuf, Recipients, Sender};
use crate::world::*;
use std::sync::Arc;

/// `test_broadcast`
#[tokio::test(start_paused = true)]
async fn a_broadcast_reaches_all_nodes() {
    let nodes = nodes(4).await;
    let (first, second) = (text("first"), text("second"));
    nodes[0].send(&first);
    arrive().await;
    for node in &nodes {
        assert_eq!(node.subscribe(first.digest()).await.unwrap().inner(), first.inner());
    }
    nodes[0].send(&second);
    arrive().await;
    for node in &nodes {
        assert!(node.has(&second).await);
    }
}

/// `test_self_retrieval`
#[tokio::test(start_paused = true)]
async fn a_node_gets_its_own_message() {
    let [node] = <[Node; 1]>::try_from(nodes(1).await).ok().unwrap();
    let message = text("own");
    assert!(!node.has(&message).await);
    let before = node.subscribe(message.digest());
    node.send(&message);
    assert_eq!(before.await.unwrap().inner(), message.inner());
    assert!(node.has(&message).await && node.is_served(&message).await);
}

/// `test_shared_broadcast_reuses_message`
#[tokio::test(start_paused = true)]
async fn the_cache_shares_the_message_of_the_caller() {
    let nodes = nodes(1).await;
    let message = text("shared");
    nodes[0].send(&message);
    let cached = nodes[0].get(message.digest()).await.unwrap();
    assert!(Arc::ptr_eq(&cached.inner_shared(), &message.inner_shared()));
}

/// `test_packet_loss`
#[tokio::test(start_paused = true)]
async fn a_message_that_is_sent_again_gets_through_a_network_that_loses_nine_of_ten() {
    let world = World::lossy(10, 1, 7, 0.9);
    world.oracle.track(0, &world.keys);
    let (nodes, message) = (world.start().await, text("again"));
    for round in 0..100 {
        nodes[0].send(&message);
        arrive().await;
        let mut served = 0;
        for node in &nodes {
            served += usize::from(node.is_served(&message).await);
        }
        if served == nodes.len() {
            assert!(round > 0, "nothing was lost");
            return;
        }
    }
    panic!("some nodes do not have it");
}

/// `test_get_cached`
#[tokio::test(start_paused = true)]
async fn a_subscription_to_a_cached_message_is_served_at_once() {
    let nodes = nodes(2).await;
    let message = text("cached");
    nodes[0].send(&message);
    arrive().await;
    assert!(nodes[1].is_served(&message).await);
}

/// `test_get_nonexistent`
#[tokio::test(start_paused = true)]
async fn a_subscription_is_served_though_others_to_its_digest_were_dropped() {
    let nodes = nodes(2).await;
    let message = text("future");
    let waits = nodes[0].subscribe(message.digest());
    drop(nodes[0].subscribe(message.digest()));
    drop(nodes[1].subscribe(message.digest()));
    nodes[0].send(&message);
    arrive().await;
    assert_eq!(waits.await.unwrap().inner(), message.inner());
}

/// `test_selective_recipients`
#[tokio::test(start_paused = true)]
async fn only_the_recipient_of_a_message_gets_it() {
    let world = World::new(4, 1);
    world.oracle.track(0, &world.keys);
    let (nodes, message) = (world.start().await, text("to one"));
    assert!(nodes[0].broadcast(Recipients::One(world.keys[1]), message.clone()).accepted());
    arrive().await;
    assert!(nodes[1].has(&message).await);
    assert!(!nodes[2].has(&message).await && !nodes[3].has(&message).await);
}

/// `test_deterministic_retrieval`
#[test]
fn the_same_seed_leads_to_the_same_messages() {
    let found = |seed| {
        run(async {
            let world = World::lossy(3, 1, seed, 0.5);
            world.oracle.track(0, &world.keys);
            let (nodes, mut found) = (world.start().await, Vec::new());
            let messages = ["1", "2", "3"].map(text);
            messages.iter().zip(&nodes).for_each(|(message, node)| node.send(message));
            arrive().await;
            for node in &nodes {
                for message in &messages {
                    found.push(node.has(message).await);
                }
            }
            found
        })
    };
    let runs: Vec<_> = (0..10).map(found).collect();
    assert_eq!(runs, (0..10).map(found).collect::<Vec<_>>());
    assert!(runs.iter().any(|it| *it != runs[0]), "the seed decides nothing");
}

/// `test_malformed_network_payload_does_not_break_valid_traffic`
#[tokio::test(start_paused = true)]
async fn payloads_that_are_no_message_stop_nothing() {
    let world = World::new(3, 1);
    world.oracle.track(0, &world.keys);
    let (mut attacker, _arriving) = world.network.join(world.keys[2]);
    let (honest, victim) = (world.start_one(0), world.start_one(1));
    for garbage in [vec![0xff], vec![], vec![0, 0, 0, 9, 1], vec![0xff; 2_000]] {
        let sent = attacker.send(Recipients::One(world.keys[1]), IoBuf::from(garbage), false);
        assert_eq!(sent, [world.keys[1]]);
    }
    arrive().await;
    let message = text("valid");
    assert!(honest.broadcast(Recipients::One(world.keys[1]), message.clone()).accepted());
    assert_eq!(victim.subscribe(message.digest()).await.unwrap().inner(), message.inner());
    assert_eq!(victim.metrics.snapshot().receive.invalid, 4);
}
