//! The order of a turn: what is queued before a message arrives is served first, so no subscription misses its message.

mod support;

use broadcast_engine::{Engine, Message, Recipients};
use std::time::Duration;
use support::*;
use tokio::sync::mpsc;
use tokio::time::timeout;

const PEER: Key = [2; 32];
const STRANGER: Key = [9; 32];

/// Why the awaited message is not kept, so that only who waits already can get it.
#[derive(Clone, Copy, Debug)]
enum Unkept {
    Stranger,
    Oversize,
    NoPlace,
}

/// Queues broadcasts, then gets, and then a subscription, all before its message arrives. Returns whether the engine
/// serves the subscription. (The clock is paused: it moves on when no task has anything to do.)
async fn is_served(unkept: Unkept, broadcasts: u64, gets: u64) -> bool {
    let mut config = fixed();
    match unkept {
        Unkept::Stranger => {}
        Unkept::Oversize => config.byte_budget = 20,
        Unkept::NoPlace => config.deque_size = 0,
    }
    let from = if matches!(unkept, Unkept::Stranger) { STRANGER } else { PEER };
    let (engine, mailbox) = Engine::<_, TestMessage, _, _>::new(config).unwrap();
    let (payloads, network) = mpsc::channel(1);
    for number in 0..broadcasts {
        let message = TestMessage::digested(number.to_be_bytes());
        assert!(mailbox.broadcast(Recipients::All, message).accepted());
    }
    let _gets: Vec<_> = (0..gets).map(|_| mailbox.get([0; 32])).collect();
    let awaited = TestMessage::digested("long enough to be oversize");
    let subscription = mailbox.subscribe(awaited.digest());
    payloads.try_send((from, awaited.encode())).unwrap();
    let _handle = engine.start((Nowhere, network));
    let served = timeout(Duration::from_secs(1), subscription).await;
    assert!(mailbox.get(awaited.digest()).await.is_none(), "the message is kept");
    served == Ok(Ok(awaited))
}

#[tokio::test(start_paused = true)]
async fn a_subscription_made_before_its_message_arrives_is_served() {
    for unkept in [Unkept::Stranger, Unkept::Oversize, Unkept::NoPlace] {
        for broadcasts in [0, 10, 32, 63, 200] {
            let mut served = 0;
            for gets in 0..64 {
                served += u32::from(is_served(unkept, broadcasts, gets).await);
            }
            assert_eq!(served, 64, "of 64, behind {broadcasts} broadcasts: {unkept:?}");
        }
    }
}
