//! An engine as plain Rust has it, to time a started engine beside: one thread owns the messages,
//! and clients in threads ask it for one.
//!
//!     gets mpsc|lock CLIENTS ROUNDS DEPTH
//!
//! Each client makes DEPTH gets and then waits for all of them, ROUNDS times, as those of
//! `rates gets` do, and the line that is printed is the same.

use std::collections::{BTreeMap, VecDeque};
use std::sync::mpsc::{Sender, channel};
use std::sync::{Arc, Condvar, Mutex};
use std::time::Instant;
use std::{env, thread};

type Digest = [u8; 32];
type Message = Arc<Vec<u8>>;

/// Where a client waits for its reply.
#[derive(Default)]
struct Reply {
    message: Mutex<Option<Option<Message>>>,
    sent: Condvar,
}

impl Reply {
    fn send(&self, message: Option<Message>) {
        *self.message.lock().unwrap() = Some(message);
        self.sent.notify_one();
    }

    fn wait(&self) -> Option<Message> {
        let reply = self.message.lock().unwrap();
        let mut reply = self.sent.wait_while(reply, |it| it.is_none()).unwrap();
        reply.take().unwrap()
    }
}

type Get = (Digest, Arc<Reply>);

/// A queue of gets, and whether it is closed.
#[derive(Default)]
struct Queue {
    gets: Mutex<(VecDeque<Get>, bool)>,
    changed: Condvar,
}

impl Queue {
    fn next(&self) -> Option<Get> {
        let gets = self.gets.lock().unwrap();
        let is_idle = |it: &mut (VecDeque<Get>, bool)| it.0.is_empty() && !it.1;
        self.changed.wait_while(gets, is_idle).unwrap().0.pop_front()
    }
}

/// How a client hands its gets over.
#[derive(Clone)]
enum Mailbox {
    Mpsc(Sender<Get>),
    Lock(Arc<Queue>),
}

impl Mailbox {
    fn get(&self, digest: Digest) -> Arc<Reply> {
        let reply = Arc::new(Reply::default());
        let get = (digest, Arc::clone(&reply));
        match self {
            Mailbox::Mpsc(sender) => sender.send(get).unwrap(),
            Mailbox::Lock(queue) => {
                queue.gets.lock().unwrap().0.push_back(get);
                queue.changed.notify_one();
            }
        }
        reply
    }
}

/// Makes the gets of a client. Returns how many gave the message.
fn ask(mailbox: Mailbox, digest: Digest, rounds: usize, depth: usize) -> usize {
    let mut asked = Vec::with_capacity(depth);
    let mut answered = 0;
    for _ in 0..rounds {
        asked.extend((0..depth).map(|_| mailbox.get(digest)));
        answered += asked.drain(..).filter_map(|it| it.wait()).count();
    }
    answered
}

fn main() {
    let words: Vec<String> = env::args().skip(1).collect();
    let numbers: Vec<usize> = words[1..].iter().map(|it| it.parse().unwrap()).collect();
    let [clients, rounds, depth] = numbers[..] else { panic!("three numbers are wanted") };
    let digest = [7; 32];
    let held = BTreeMap::from([(digest, Arc::new(vec![1u8; 8]))]);
    let serve = move |get: Get| get.1.send(held.get(&get.0).cloned());
    let queue = Arc::new(Queue::default());
    let (mailbox, engine) = if words[0] == "mpsc" {
        let (sender, gets) = channel();
        (Mailbox::Mpsc(sender), thread::spawn(move || gets.into_iter().for_each(serve)))
    } else {
        let own = Arc::clone(&queue);
        let gets = std::iter::from_fn(move || own.next());
        (Mailbox::Lock(Arc::clone(&queue)), thread::spawn(move || gets.for_each(serve)))
    };
    let start = Instant::now();
    let threads: Vec<_> = (0..clients)
        .map(|_| mailbox.clone())
        .map(|it| thread::spawn(move || ask(it, digest, rounds, depth)))
        .collect();
    let answered: usize = threads.into_iter().map(|it| it.join().unwrap()).sum();
    let passed = start.elapsed();
    drop(mailbox);
    queue.gets.lock().unwrap().1 = true;
    queue.changed.notify_one();
    engine.join().unwrap();
    let second = answered as f64 / passed.as_secs_f64();
    println!("{answered} answered in {} ms, {second:.0} a second", passed.as_millis());
}
