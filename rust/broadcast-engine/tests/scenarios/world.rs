//! Nodes, and the futures of their callers.

use crate::feeds::Sent;
use crate::node::{Asked, Node, Sizes};
use crate::words::{key, keys, message, number, number_behind, number_of};
use broadcast_engine::{Message, Recipients};
use std::num::NonZeroUsize;
use std::time::Duration;

/// Nodes in the order in which they were created, and futures by their numbers.
pub struct World {
    nodes: Vec<Node>,
    asked: Vec<Asked>,
    /// How many sends are still lost.
    lose: u64,
}

fn sizes(words: &[&str]) -> Sizes {
    let mailbox = number_behind(words, "mailbox").unwrap_or(1) as usize;
    Sizes {
        mailbox: NonZeroUsize::new(mailbox).unwrap(),
        lists: number_behind(words, "lists").unwrap_or(0) as usize,
        bytes: number_behind(words, "bytes").unwrap_or(u64::MAX),
    }
}

/// A digest of a number, which no message has.
fn numbered(number: u64) -> [u8; 32] {
    let mut digest = [0; 32];
    digest[24..].copy_from_slice(&number.to_be_bytes());
    digest
}

fn is_for(sent: &Sent, number: u64) -> bool {
    match &sent.recipients {
        Recipients::All => true,
        Recipients::Some(keys) => keys.contains(&key(number)),
        Recipients::One(one) => number_of(one) == number,
    }
}

impl World {
    pub fn new() -> World {
        World { nodes: Vec::new(), asked: Vec::new(), lose: 0 }
    }

    fn node(&mut self, number: u64) -> &mut Node {
        self.nodes.iter_mut().find(|it| it.number == number).expect("no such node")
    }

    /// Does what the words of a sentence say, and returns what is seen.
    pub async fn does(&mut self, words: &[&str]) -> Option<String> {
        match words {
            [] => {}
            ["nodes", last, rest @ ..] => {
                self.nodes.extend((1..=number(last)).map(|it| Node::new(it, sizes(rest))));
            }
            ["node", it, rest @ ..] => self.nodes.push(Node::new(number(it), sizes(rest))),
            ["peers", words @ ..] => {
                self.nodes.iter().for_each(|it| it.peers.set(keys(words)));
                self.run().await;
            }
            ["run"] => self.run().await,
            ["lose", sends] => self.lose = number(sends),
            ["drop", future] => self.drop_futures(number(future), number(future)),
            ["drop", first, "to", last] => self.drop_futures(number(first), number(last)),
            [future] => return Some(self.asked[number(future) as usize].look()),
            [node, rest @ ..] => return self.calls(number(node), rest).await,
        }
        None
    }

    /// Makes the call that the words say at a node, and returns what is seen.
    async fn calls(&mut self, number_of_node: u64, words: &[&str]) -> Option<String> {
        match words {
            ["subscribes", "to", "digests", first, "to", last] => {
                for at in number(first)..=number(last) {
                    self.ask(number_of_node, false, numbered(at), at);
                }
            }
            [verb @ ("subscribes" | "gets"), name, "as", future] => {
                let digest = message(name).digest();
                self.ask(number_of_node, *verb == "gets", digest, number(future));
            }
            [verb @ ("subscribes" | "gets"), name] => {
                return Some(self.hear(number_of_node, *verb == "gets", name).await);
            }
            ["has", names @ ..] => return Some(self.has(number_of_node, names).await),
            _ => return self.node(number_of_node).does(words),
        }
        None
    }

    /// Makes a get or a subscribe, whose future gets the number.
    fn ask(&mut self, node: u64, is_get: bool, digest: [u8; 32], future: u64) {
        let asked = self.node(node).ask(is_get, digest);
        let place = future as usize;
        if self.asked.len() <= place {
            self.asked.resize_with(place + 1, || Asked::GONE);
        }
        self.asked[place] = asked;
    }

    /// Makes a get or a subscribe, lets all run, and drops the future. Returns what it gives.
    async fn hear(&mut self, node: u64, is_get: bool, name: &str) -> String {
        let mut asked = self.node(node).ask(is_get, message(name).digest());
        self.run().await;
        asked.look()
    }

    /// The names whose messages a get finds.
    async fn has(&mut self, node: u64, names: &[&str]) -> String {
        let mut found = Vec::new();
        for name in names {
            let heard = self.hear(node, true, name).await;
            if heard != "nothing" {
                found.push(heard);
            }
        }
        if found.is_empty() { "nothing".to_owned() } else { found.join(" ") }
    }

    fn drop_futures(&mut self, first: u64, last: u64) {
        for asked in self.asked.iter_mut().take(last as usize + 1).skip(first as usize) {
            *asked = Asked::GONE;
        }
    }

    /// Lets all nodes run, and delivers what they sent, until all rest.
    async fn run(&mut self) {
        loop {
            // The clock is paused, and goes on once no engine has anything to do.
            tokio::time::sleep(Duration::from_millis(1)).await;
            if !self.deliver() {
                return;
            }
        }
    }

    /// Delivers what was sent, but for what is lost. Returns whether there was anything.
    fn deliver(&mut self) -> bool {
        let mut are_any = false;
        for at in 0..self.nodes.len() {
            for sent in self.nodes[at].undelivered() {
                are_any = true;
                if self.lose > 0 {
                    self.lose -= 1;
                } else {
                    self.spread(self.nodes[at].number, &sent);
                }
            }
        }
        are_any
    }

    /// Delivers what a node sent to each other node that it is for.
    fn spread(&self, sender: u64, sent: &Sent) {
        for node in &self.nodes {
            if node.number != sender && is_for(sent, node.number) {
                node.inbound.push(key(sender), sent.bytes.clone());
            }
        }
    }
}
