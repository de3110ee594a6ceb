//! A node: an engine, its mailbox, and what stands around it.

use crate::engines::{Key, TestMessage, count, payloads_of};
use crate::feeds::{Found, Gate, Inbound, Outbound, Peers, Sent};
use crate::words::{
    bytes, digested, key, keys, message, name_of, name_of_payload, number, recipients, word_of,
    words_of,
};
use broadcast_engine::{Config, Engine, Handle, Mailbox, Message, Metrics};
use std::future::Future;
use std::num::NonZeroUsize;
use std::pin::Pin;
use std::task::{Context, Poll, Waker};

/// The counters, in the order in which they are shown, by their names in a scenario and in `Metrics`.
const COUNTERS: [(&str, &str); 13] = [
    ("received", "receive.success"),
    ("ignored", "receive.dropped"),
    ("invalid", "receive.invalid"),
    ("served", "subscribe.success"),
    ("canceled", "subscribe.dropped"),
    ("found", "get.success"),
    ("missed", "get.failure"),
    ("abandoned", "get.dropped"),
    ("awaited", "waiters"),
    ("receive.failure", "receive.failure"),
    ("subscribe.failure", "subscribe.failure"),
    ("subscribe.invalid", "subscribe.invalid"),
    ("get.invalid", "get.invalid"),
];

/// The sizes of an engine.
#[derive(Clone, Copy)]
pub struct Sizes {
    pub mailbox: NonZeroUsize,
    pub lists: usize,
    pub bytes: u64,
}

/// The future of a get or a subscribe, until it is ready or dropped.
pub struct Asked(Option<Pin<Box<dyn Future<Output = Found>>>>);

impl Asked {
    pub const GONE: Asked = Asked(None);

    fn new(future: impl Future<Output = Found> + 'static) -> Asked {
        Asked(Some(Box::pin(future)))
    }

    /// The name of the message that the future gives, `nothing`, or `waits`.
    pub fn look(&mut self) -> String {
        let Some(future) = &mut self.0 else { return "nothing".to_owned() };
        match future.as_mut().poll(&mut Context::from_waker(Waker::noop())) {
            Poll::Pending => "waits".to_owned(),
            Poll::Ready(found) => {
                *self = Asked::GONE;
                found.map_or("nothing".to_owned(), |it| name_of(it.inner()))
            }
        }
    }
}

pub struct Node {
    pub number: u64,
    mailbox: Mailbox<Key, TestMessage>,
    metrics: Metrics,
    handle: Handle,
    pub peers: Peers,
    pub inbound: Inbound,
    outbound: Outbound,
    gate: Gate,
    /// How many sends were delivered, and how many were shown.
    delivered: usize,
    shown: usize,
}

impl Node {
    /// Starts a node. It sends with priority if its key is even.
    pub fn new(number: u64, sizes: Sizes) -> Node {
        let (peers, inbound) = (Peers::default(), Inbound::default());
        let (outbound, gate) = (Outbound::default(), Gate::new());
        let config = Config::new(key(number), peers.clone(), usize::MAX)
            .mailbox_size(sizes.mailbox)
            .deque_size(sizes.lists)
            .byte_budget(sizes.bytes)
            .priority(number.is_multiple_of(2))
            .strategy(gate.clone());
        let (engine, mailbox) = Engine::new(config).unwrap();
        let metrics = engine.metrics();
        let handle = engine.start((outbound.clone(), inbound.clone()));
        let (delivered, shown) = (0, 0);
        Node { number, mailbox, metrics, handle, peers, inbound, outbound, gate, delivered, shown }
    }

    /// Makes a get or a subscribe.
    pub fn ask(&self, is_get: bool, digest: [u8; 32]) -> Asked {
        if is_get {
            Asked::new(self.mailbox.get(digest))
        } else {
            let subscription = self.mailbox.subscribe(digest);
            Asked::new(async { subscription.await.ok() })
        }
    }

    /// The sends that were not delivered.
    pub fn undelivered(&mut self) -> Vec<Sent> {
        let sent = self.outbound.0.lock().unwrap()[self.delivered..].to_vec();
        self.delivered += sent.len();
        sent
    }

    /// Does what the words say, and returns what is seen.
    pub fn does(&mut self, words: &[&str]) -> Option<String> {
        match words {
            ["tracks", words @ ..] => self.peers.set(keys(words)),
            ["ends", "peers"] => self.peers.end(),
            ["receives", "bytes", digits, "from", peer] => {
                self.inbound.push(key(number(peer)), bytes(digits));
            }
            ["receives", name, "from", peer] => {
                self.inbound.push(key(number(peer)), message(name).encode());
            }
            ["network", "fails"] => self.inbound.fail(),
            ["holds", "jobs"] => self.gate.set_open(false),
            ["releases", "jobs"] => self.gate.set_open(true),
            ["stops"] => self.handle.stop(),
            _ => return Some(self.shows(words)),
        }
        None
    }

    /// What the words ask for.
    fn shows(&mut self, words: &[&str]) -> String {
        match words {
            ["broadcasts", name, "as", other, rest @ ..] => self.broadcast(name, other, rest),
            ["broadcasts", name, rest @ ..] => self.broadcast(name, name, rest),
            ["sends"] => self.sends(),
            ["counts"] => self.counts(),
            ["counts", "from", peer] => {
                payloads_of(&self.metrics, &key(number(peer))).unwrap_or(0).to_string()
            }
            _ => panic!("no engine in Rust does {words:?}"),
        }
    }

    fn broadcast(&self, name: &str, goes_by: &str, rest: &[&str]) -> String {
        let to = recipients(rest.strip_prefix(&["to"]).unwrap_or(&[]));
        word_of(self.mailbox.broadcast(to, digested(name, goes_by))).to_owned()
    }

    /// What was sent since the last call.
    fn sends(&mut self) -> String {
        let sent = self.outbound.0.lock().unwrap()[self.shown..].to_vec();
        self.shown += sent.len();
        let shown: Vec<_> = sent
            .into_iter()
            .map(|it| {
                let first = if it.priority { " first" } else { "" };
                format!("{} to {}{first}", name_of_payload(it.bytes), words_of(&it.recipients))
            })
            .collect();
        if shown.is_empty() { "nothing".to_owned() } else { shown.join(", ") }
    }

    /// The counters that are not 0. Payloads are those of all peers together.
    fn counts(&self) -> String {
        let stats = self.metrics.snapshot();
        let payloads = stats.peers.values().sum::<u64>() + stats.other_peers;
        let counters = COUNTERS.map(|(name, counter)| (name, count(&self.metrics, counter)));
        let shown: Vec<_> = [("payloads", payloads)]
            .into_iter()
            .chain(counters)
            .filter(|(_, number)| *number > 0)
            .map(|(name, number)| format!("{name} {number}"))
            .collect();
        if shown.is_empty() { "nothing".to_owned() } else { shown.join(" ") }
    }
}
