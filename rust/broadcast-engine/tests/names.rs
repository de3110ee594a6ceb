//! Keys and digests of any length: none can be chosen so that it passes for another.

use broadcast_engine::{
    Config, Digest, Digested, Engine, Fixed, Mailbox, Message, Metrics, Recipients, Sender,
};
use bytes::Bytes;
use std::future::{Future, pending};
use std::pin::{Pin, pin};
use std::task::{Context, Poll, Waker};
use tokio::sync::mpsc;

type Name = Vec<u8>;

/// A message whose digest is its text.
#[derive(Clone, Debug, PartialEq)]
struct Text(Name);

impl Message for Text {
    type Digest = Name;
    type Config = ();
    type Error = ();

    fn encode(&self) -> Bytes {
        self.0.clone().into()
    }

    fn decode(bytes: Bytes, (): &()) -> Result<Text, ()> {
        Ok(Text(bytes.into()))
    }

    fn digest(&self) -> Name {
        self.0.clone()
    }
}

struct Nowhere;

impl Sender for Nowhere {
    type PublicKey = Name;

    fn send(&mut self, _: Recipients<Name>, _: Bytes, _: bool) {}
}

fn poll<F: Future>(future: F) -> Poll<F::Output> {
    pin!(future).poll(&mut Context::from_waker(Waker::noop()))
}

/// An engine that is polled by hand. Its peers are itself, the empty key, and others.
struct Run {
    engine: Pin<Box<dyn Future<Output = broadcast_engine::End>>>,
    mailbox: Mailbox<Name, Text>,
    payloads: mpsc::Sender<(Name, Bytes)>,
    metrics: Metrics,
}

impl Run {
    fn new(others: &[Name]) -> Run {
        let peers = Fixed::new([&[Name::new()], others].concat());
        let (engine, mailbox) = Engine::new(Config::new(Name::new(), peers, ())).unwrap();
        let (metrics, (payloads, network)) = (engine.metrics(), mpsc::channel(100));
        let engine = Box::pin(engine.run((Nowhere, network), pending()));
        let mut run = Run { engine, mailbox, payloads, metrics };
        run.step();
        run
    }

    fn step(&mut self) {
        assert!(poll(&mut self.engine).is_pending());
    }

    fn comes(&mut self, from: &[u8], text: &[u8]) {
        self.payloads.try_send((from.to_vec(), text.to_vec().into())).unwrap();
        self.step();
    }

    fn listed(&mut self, peer: &[u8]) -> Vec<Name> {
        let list = self.mailbox.list(peer.to_vec());
        self.step();
        let Poll::Ready(Ok(listed)) = poll(list) else { panic!("no list") };
        listed.iter().map(Digested::digest).collect()
    }
}

/// Names of lengths about those that the cache knows.
fn names() -> Vec<Name> {
    [1, 31, 32, 33, 43, 63, 64, 65, 100, 1_000].map(|len| vec![7; len]).into()
}

/// What a name might be hashed to: its SHA-256, also behind what marks a hash.
fn forged(name: &[u8]) -> [Name; 2] {
    let hash = Digest::sha256(name).as_bytes().to_vec();
    [hash.clone(), [b"broadcast-engine: SHA-256 of key".to_vec(), hash].concat()]
}

#[test]
fn keys_and_digests_have_any_length() {
    let mut run = Run::new(&names());
    for peer in names() {
        names().iter().for_each(|text| run.comes(&peer, text));
    }
    for peer in names() {
        assert_eq!(run.listed(&peer), names().into_iter().rev().collect::<Vec<_>>());
    }
    let counts: Vec<u64> = run.metrics.snapshot().peers.values().copied().collect();
    assert_eq!(counts, [&[0][..], &[10; 10]].concat());
}

#[test]
fn no_stranger_passes_for_a_primary_peer() {
    for peer in names() {
        let mut run = Run::new(std::slice::from_ref(&peer));
        forged(&peer).iter().for_each(|stranger| run.comes(stranger, b"a message"));
        assert_eq!(run.listed(&peer), [] as [Name; 0], "{} bytes", peer.len());
        assert_eq!(run.metrics.snapshot().other_peers, 2);
        run.comes(&peer, b"a message");
        assert_eq!(run.listed(&peer), [b"a message"]);
    }
}

/// A key that looks as the cache's key of another peer is known by a hash of its own.
#[test]
fn a_primary_peer_that_has_a_forged_key_has_a_list_of_its_own() {
    for peer in names() {
        let [_, forged] = forged(&peer);
        let mut run = Run::new(&[peer.clone(), forged.clone()]);
        run.comes(&forged, b"a message");
        assert_eq!((run.listed(&peer), run.listed(&forged)), (vec![], vec![b"a message".into()]));
    }
}

#[test]
fn no_message_passes_for_one_of_another_digest() {
    for awaited in names() {
        let mut run = Run::new(&[b"peer".to_vec()]);
        let mut subscription = run.mailbox.subscribe(awaited.clone());
        run.step();
        forged(&awaited).iter().for_each(|text| run.comes(b"peer", text));
        assert_eq!(subscription.try_recv(), Ok(None), "{} bytes", awaited.len());
        let found = run.mailbox.get(awaited.clone());
        run.step();
        assert_eq!(poll(found), Poll::Ready(None));
        run.comes(b"peer", &awaited);
        assert_eq!(subscription.try_recv(), Ok(Some(Digested::new(Text(awaited)))));
    }
}
