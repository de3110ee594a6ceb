//! What dropped subscriptions and ended engines leave.

use crate::cw::{Broadcaster, Feedback, Recipients};
use crate::world::*;

/// `test_dropped_waiters_for_missing_digest_are_cleaned_up`
#[tokio::test(start_paused = true)]
async fn dropped_subscriptions_to_a_message_that_never_comes_are_cleaned_up() {
    let nodes = nodes(1).await;
    let (node, missing) = (&nodes[0], text("never comes"));
    let waiting = [node.subscribe(missing.digest()), node.subscribe(missing.digest())];
    assert!(!node.has(&text("before")).await);
    arrive().await;
    assert_eq!(node.metrics.snapshot().waiters, 1);
    drop(waiting);
    assert!(!node.has(&text("after")).await);
    arrive().await;
    assert_eq!(node.metrics.snapshot().waiters, 0);
}

/// `test_operations_after_shutdown_do_not_panic`
#[tokio::test(start_paused = true)]
async fn the_mailbox_of_an_aborted_engine_is_closed() {
    let nodes = nodes(2).await;
    let message = text("late");
    nodes[0].send(&message);
    nodes.iter().for_each(|it| it.handle.abort());
    arrive().await;
    let again = nodes[0].broadcast(Recipients::All, message.clone());
    assert_eq!(again, Feedback::Closed);
    assert!(nodes[0].subscribe(message.digest()).await.is_err());
    assert!(nodes[0].get(message.digest()).await.is_none());
}

/// `test_clean_shutdown`
#[test]
fn aborted_engines_end() {
    for seed in 0..25 {
        run(async {
            let world = World::lossy(2, 1, seed, 0.5);
            world.oracle.track(0, &world.keys);
            let (nodes, message) = (world.start().await, text("heard"));
            for _ in 0..50 {
                nodes[0].send(&message);
                arrive().await;
            }
            assert!(nodes[1].has(&message).await);
            assert_eq!(world.network.joined(), 2);
            nodes.iter().for_each(|it| it.handle.abort());
            for node in nodes {
                assert!(node.handle.await.unwrap_err().is_cancelled());
            }
            arrive().await;
            assert_eq!(world.network.joined(), 0);
        });
    }
}
