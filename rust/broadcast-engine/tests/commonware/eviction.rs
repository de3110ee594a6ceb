//! How long messages are kept.

use crate::world::*;

/// `test_cache_eviction_single_peer`
#[tokio::test(start_paused = true)]
async fn the_oldest_message_of_a_full_list_leaves() {
    let nodes = nodes(2).await;
    let oldest = text("oldest");
    nodes[0].send(&oldest);
    nodes[0].fill("newer").await;
    for number in 0..LISTED {
        assert!(nodes[1].is_served(&text(format!("newer {number}"))).await);
    }
    assert!(!nodes[1].is_served(&oldest).await);
}

/// `test_cache_eviction_multi_peer`
#[tokio::test(start_paused = true)]
async fn a_message_that_two_sent_one_after_the_other_leaves_with_the_second_list() {
    let nodes = nodes(3).await;
    let message = text("of two");
    for sender in [&nodes[0], &nodes[2]] {
        sender.send(&message);
        arrive().await;
    }
    nodes[0].fill("first").await;
    assert!(nodes[1].is_served(&message).await);
    nodes[2].fill("second").await;
    assert!(!nodes[1].is_served(&message).await);
}

/// `test_ref_count_across_peers`
#[tokio::test(start_paused = true)]
async fn a_message_that_two_sent_at_once_leaves_with_the_second_list() {
    let nodes = nodes(3).await;
    let message = text("of two");
    nodes[0].send(&message);
    nodes[1].send(&message);
    arrive().await;
    assert!(nodes[2].has(&message).await);
    nodes[0].fill("first").await;
    assert!(nodes[2].has(&message).await);
    nodes[1].fill("second").await;
    assert!(!nodes[2].has(&message).await);
}

/// `test_peer_set_update_evicts_disconnected_peer_buffers`
#[tokio::test(start_paused = true)]
async fn the_messages_of_a_peer_leave_with_it() {
    let world = World::new(3, 1);
    world.oracle.track(0, &world.keys);
    let (nodes, message) = (world.start().await, text("alone"));
    nodes[0].send(&message);
    arrive().await;
    assert!(nodes[1].has(&message).await);
    world.track(1, &world.keys[1..]).await;
    assert!(!nodes[1].has(&message).await);
}

/// `test_peer_set_update_preserves_shared_messages`
#[tokio::test(start_paused = true)]
async fn a_message_stays_that_a_peer_who_stays_sent_too() {
    let world = World::new(3, 1);
    world.oracle.track(0, &world.keys);
    let (nodes, message) = (world.start().await, text("of two"));
    for sender in [&nodes[0], &nodes[2]] {
        sender.send(&message);
        arrive().await;
    }
    assert!(nodes[1].has(&message).await);
    world.track(1, &world.keys[1..]).await;
    assert!(nodes[1].has(&message).await);
}

/// `test_peer_set_update_keeps_peers_in_overlap_until_their_set_ages_out`
#[tokio::test(start_paused = true)]
async fn a_peer_stays_primary_until_no_tracked_set_has_it() {
    let world = World::new(3, 2);
    world.oracle.track(0, &world.keys);
    let (nodes, before, after) = (world.start().await, text("before"), text("after"));
    nodes[0].send(&before);
    arrive().await;
    world.track(1, &world.keys[1..]).await;
    assert!(nodes[1].has(&before).await);
    nodes[0].send(&after);
    arrive().await;
    assert!(nodes[1].has(&after).await);
    world.track(2, &world.keys[1..]).await;
    assert!(!nodes[1].has(&before).await && !nodes[1].has(&after).await);
}
