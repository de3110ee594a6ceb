//! What a scenario feeds an engine with: peer sets, payloads, and jobs that take as long as it says.

use crate::engines::{Key, TestMessage};
use broadcast_engine::{Digested, Message, Provider, Receiver, Recipients, Sender, Strategy};
use bytes::Bytes;
use std::collections::VecDeque;
use std::sync::{Arc, Mutex};
use tokio::sync::{Notify, watch};

/// What a provider reports next. A newer set takes the place of one that the engine has not read.
#[derive(Default)]
enum Update {
    #[default]
    None,
    Set(Vec<Key>),
    End,
}

/// The peer sets of a node.
#[derive(Clone, Default)]
pub struct Peers(Arc<(Mutex<Update>, Notify)>);

impl Peers {
    pub fn set(&self, keys: Vec<Key>) {
        self.put(Update::Set(keys));
    }

    pub fn end(&self) {
        self.put(Update::End);
    }

    fn put(&self, update: Update) {
        *self.0.0.lock().unwrap() = update;
        self.0.1.notify_one();
    }

    fn take(&self) -> Option<Option<Vec<Key>>> {
        let mut update = self.0.0.lock().unwrap();
        match std::mem::take(&mut *update) {
            Update::None => None,
            Update::Set(keys) => Some(Some(keys)),
            Update::End => {
                *update = Update::End;
                Some(None)
            }
        }
    }
}

impl Provider for Peers {
    type PublicKey = Key;

    async fn next(&mut self) -> Option<Vec<Key>> {
        loop {
            if let Some(update) = self.take() {
                return update;
            }
            self.0.1.notified().await;
        }
    }
}

#[derive(Default)]
struct Payloads {
    queue: VecDeque<(Key, Bytes)>,
    fails: bool,
}

/// The payloads of a node. The network fails once they are taken.
#[derive(Clone, Default)]
pub struct Inbound(Arc<(Mutex<Payloads>, Notify)>);

impl Inbound {
    pub fn push(&self, from: Key, payload: Bytes) {
        self.0.0.lock().unwrap().queue.push_back((from, payload));
        self.0.1.notify_one();
    }

    pub fn fail(&self) {
        self.0.0.lock().unwrap().fails = true;
        self.0.1.notify_one();
    }

    fn take(&self) -> Option<Result<(Key, Bytes), &'static str>> {
        let mut payloads = self.0.0.lock().unwrap();
        let failed = payloads.fails.then_some(Err("the network is gone"));
        payloads.queue.pop_front().map(Ok).or(failed)
    }
}

impl Receiver for Inbound {
    type PublicKey = Key;
    type Error = &'static str;

    async fn recv(&mut self) -> Result<(Key, Bytes), &'static str> {
        loop {
            if let Some(received) = self.take() {
                return received;
            }
            self.0.1.notified().await;
        }
    }
}

/// What an engine sent.
#[derive(Clone)]
pub struct Sent {
    pub recipients: Recipients<Key>,
    pub bytes: Bytes,
    pub priority: bool,
}

/// Keeps what an engine sends.
#[derive(Clone, Default)]
pub struct Outbound(pub Arc<Mutex<Vec<Sent>>>);

impl Sender for Outbound {
    type PublicKey = Key;

    fn send(&mut self, recipients: Recipients<Key>, bytes: Bytes, priority: bool) {
        self.0.lock().unwrap().push(Sent { recipients, bytes, priority });
    }
}

/// Digests messages while the gate is open.
#[derive(Clone)]
pub struct Gate(Arc<watch::Sender<bool>>);

impl Gate {
    pub fn new() -> Gate {
        Gate(Arc::new(watch::channel(true).0))
    }

    pub fn set_open(&self, is_open: bool) {
        self.0.send_replace(is_open);
    }
}

impl Strategy for Gate {
    async fn digest<M: Message>(&self, message: M) -> Digested<M> {
        let mut gate = self.0.subscribe();
        while !*gate.borrow_and_update() {
            gate.changed().await.unwrap();
        }
        Digested::new(message)
    }
}

/// What a caller gets.
pub type Found = Option<Digested<TestMessage>>;
