//! Snapshots: an engine that is restored has the lists and the messages of the one before.

mod support;

use broadcast_engine::{
    Canceled, Config, Digest, Digested, Engine, Message, Recipients, RestoreError, Sequential,
    Snapshot,
};
use support::*;
use tokio::sync::mpsc;

type Lists = Snapshot<Digested<TestMessage>>;
type Peers = mpsc::UnboundedReceiver<Vec<Key>>;

const OWN: Key = [1; 32];
const PEER: Key = [2; 32];

/// Waits for a snapshot, and sorts its messages, which have no order.
async fn sorted(snapshot: impl Future<Output = Result<Lists, Canceled>>) -> Lists {
    let mut snapshot = snapshot.await.unwrap();
    snapshot.messages.sort_by_key(|it| it.0);
    snapshot
}

/// The snapshot of an engine that has broadcast two messages, and got the second and a third from its peer. (It is made in
/// order: the peer's messages come later.)
async fn two_lists() -> (Lists, [Digested<TestMessage>; 3]) {
    let messages = ["first", "second", "third"].map(TestMessage::digested);
    let (engine, mailbox) = Engine::new(fixed()).unwrap();
    let (payloads, network) = mpsc::channel(2);
    for message in &messages[1..] {
        payloads.try_send((PEER, message.encode())).unwrap();
    }
    let [first, second, _] = messages.clone();
    let before = mailbox.snapshot();
    let _ = mailbox.broadcast(Recipients::All, first);
    let _ = mailbox.broadcast(Recipients::All, second);
    let between = mailbox.snapshot();
    let _handle = engine.start((Nowhere, network));
    let places = |it: Lists| it.lists.iter().map(|it| it.1.len()).collect::<Vec<_>>();
    assert_eq!(
        (places(sorted(before).await), places(sorted(between).await)),
        (vec![0, 0], vec![2, 0])
    );
    settle().await;
    (sorted(mailbox.snapshot()).await, messages)
}

/// A configuration with lists of two messages and of the bytes that the two lists are charged, and its peer sets.
fn narrow(
    messages: &[Digested<TestMessage>; 3],
) -> (mpsc::UnboundedSender<Vec<Key>>, Config<Key, usize, Peers, Sequential>) {
    let [first, second, third] = messages.each_ref().map(|it| it.encode().len() as u64);
    let (sets, peers) = mpsc::unbounded_channel();
    let config = Config::new(OWN, peers, 1 << 16);
    (sets, config.deque_size(2).byte_budget(second + first.max(third)))
}

#[tokio::test(start_paused = true)]
async fn a_restored_engine_has_the_same_lists() {
    let (snapshot, messages) = two_lists().await;
    let (sets, config) = narrow(&messages);
    let (engine, mailbox) = Engine::restore(config, snapshot.clone()).unwrap();
    let (_payloads, network) = mpsc::channel(1);
    let handle = engine.start((Nowhere, network));
    assert_eq!(sorted(mailbox.snapshot()).await, snapshot);
    let [first, second, third] = messages;
    assert_eq!(mailbox.subscribe(first.digest()).await, Ok(first.clone()));
    assert_eq!(mailbox.list(OWN).await, Ok(vec![second.clone(), first.clone()]));
    assert_eq!(mailbox.list(PEER).await, Ok(vec![third.clone(), second.clone()]));

    // The first peer set has one of the peers.
    sets.send(vec![PEER]).unwrap();
    settle().await;
    assert_eq!(mailbox.get(first.digest()).await, None);
    assert_eq!(mailbox.list(PEER).await, Ok(vec![third, second]));

    handle.stop();
    settle().await;
    assert_eq!(mailbox.snapshot().await, Err(Canceled::Ended));
}

/// The engine believes nothing that a snapshot says of a message: neither its digest nor its charge.
#[tokio::test(start_paused = true)]
async fn a_restored_engine_goes_by_the_messages() {
    let (snapshot, messages) = two_lists().await;
    for lie in [0, 1_000_000_000, usize::MAX] {
        let mut lying = snapshot.clone();
        lying.messages.iter_mut().for_each(|it| (it.0, it.1) = (Digest::new([9; 32]), lie));
        lying.lists.iter_mut().flat_map(|it| &mut it.1).for_each(|it| it.1 = lie);
        let (_sets, config) = narrow(&messages);
        let (engine, mailbox) = Engine::restore(config, lying).unwrap();
        let (_payloads, network) = mpsc::channel(1);
        let _handle = engine.start((Nowhere, network));
        assert_eq!(sorted(mailbox.snapshot()).await, snapshot);
    }
    let first = Digest::new(messages[0].digest());
    let mut lying = snapshot;
    let place = lying.messages.iter().position(|it| it.0 == first).unwrap();
    lying.messages[place].2 = Digested::precomputed(TestMessage::shared("first"), [9; 32]);
    let refused = Engine::restore(narrow(&messages).1, lying).map(drop).unwrap_err();
    assert_eq!(refused, RestoreError::NoMessage(first));
}

#[tokio::test(start_paused = true)]
async fn lists_that_are_too_long_are_not_restored() {
    let (snapshot, messages) = two_lists().await;
    let (_sets, mut short) = narrow(&messages);
    short.deque_size = 1;
    let refused = Engine::restore(short, snapshot.clone()).map(drop).unwrap_err();
    assert!(matches!(refused, RestoreError::TooManyDigests { found: 2, allowed: 1, .. }));
    let (_sets, mut small) = narrow(&messages);
    small.byte_budget -= 1;
    let refused = Engine::restore(small, snapshot).map(drop).unwrap_err();
    assert!(matches!(refused, RestoreError::TooManyBytes { .. }), "{refused}");
}
