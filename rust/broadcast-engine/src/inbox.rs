//! The requests that wait for an engine: a ready list of `mailbox_size`, and an overflow without a bound, from
//! which closed requests are removed.

use crate::deliveries::Feed;
use crate::waiting::Responder;
use crate::{Digested, Error, Message, Recipients, Snapshot};
use std::collections::VecDeque;
use std::sync::atomic::{AtomicU64, Ordering};
use std::sync::{Arc, Mutex, MutexGuard, PoisonError};
use tokio::sync::{Notify, oneshot};

/// What became of a request in the mailbox. It says nothing of a recipient.
#[derive(Clone, Copy, Debug, PartialEq, Eq)]
#[must_use]
#[non_exhaustive]
pub enum Feedback {
    /// The request is queued.
    Ok,
    /// The request is queued behind at least `mailbox_size` others.
    Backoff,
    /// The engine has ended.
    Closed,
}

impl Feedback {
    /// Returns whether the request is queued.
    pub fn accepted(self) -> bool {
        self != Feedback::Closed
    }
}

/// A request to the engine.
pub enum Request<P, M: Message> {
    Broadcast(Recipients<P>, Digested<M>),
    Subscribe(u64, M::Digest, Responder<M>),
    Get(M::Digest, oneshot::Sender<Option<Digested<M>>>),
    List(P, oneshot::Sender<Result<Vec<Digested<M>>, Error>>),
    Snapshot(oneshot::Sender<Result<Snapshot<Digested<M>>, Error>>),
    Deliver(Feed<M>),
}

impl<P, M: Message> Request<P, M> {
    fn is_closed(&self) -> bool {
        match self {
            Request::Broadcast(..) => false,
            Request::Subscribe(_, _, responder) => responder.is_closed(),
            Request::Get(_, responder) => responder.is_closed(),
            Request::List(_, responder) => responder.is_closed(),
            Request::Snapshot(responder) => responder.is_closed(),
            Request::Deliver(feed) => feed.is_closed(),
        }
    }
}

/// The length below which an overflow is not searched for closed requests.
const SPARE: usize = 1_024;

struct Queue<P, M: Message> {
    ready: VecDeque<Request<P, M>>,
    overflow: VecDeque<Request<P, M>>,
    /// The length at which the overflow is searched for closed requests.
    bound: usize,
    /// The numbers of subscriptions that were dropped.
    dropped: Vec<u64>,
    mailboxes: usize,
    is_closed: bool,
}

/// The queue between mailboxes and their engine.
pub struct Inbox<P, M: Message> {
    queue: Mutex<Queue<P, M>>,
    size: usize,
    notify: Notify,
    next_number: AtomicU64,
}

/// What wakes the engine.
pub enum Incoming<P, M: Message> {
    Request(Request<P, M>),
    /// Subscriptions were dropped.
    Dropped,
    /// No request waits, and there is no mailbox any more.
    Closed,
}

impl<P, M: Message> Inbox<P, M> {
    /// Creates the inbox of one mailbox.
    pub fn new(size: usize) -> Arc<Self> {
        let queue = Queue {
            ready: VecDeque::new(),
            overflow: VecDeque::new(),
            bound: SPARE,
            dropped: Vec::new(),
            mailboxes: 1,
            is_closed: false,
        };
        let (notify, next_number) = (Notify::new(), AtomicU64::new(0));
        Arc::new(Inbox { queue: Mutex::new(queue), size, notify, next_number })
    }

    fn lock(&self) -> MutexGuard<'_, Queue<P, M>> {
        self.queue.lock().unwrap_or_else(PoisonError::into_inner)
    }

    /// Returns the number of a new subscription.
    pub fn draw_number(&self) -> u64 {
        self.next_number.fetch_add(1, Ordering::Relaxed)
    }

    /// Queues a request, without waiting. A closed one that would go to the overflow is discarded.
    pub fn enqueue(&self, request: Request<P, M>) -> Feedback {
        let mut queue = self.lock();
        if queue.is_closed {
            return Feedback::Closed;
        }
        let is_ready = queue.overflow.is_empty() && queue.ready.len() < self.size;
        if is_ready {
            queue.ready.push_back(request);
        } else if !request.is_closed() {
            queue.push_over(request);
        }
        drop(queue);
        self.notify.notify_one();
        if is_ready { Feedback::Ok } else { Feedback::Backoff }
    }

    /// Waits for a request or a dropped subscription. Dropping the future loses neither.
    pub async fn next(&self) -> Incoming<P, M> {
        loop {
            if let Some(incoming) = self.pop() {
                return incoming;
            }
            self.notify.notified().await;
        }
    }

    fn pop(&self) -> Option<Incoming<P, M>> {
        let mut queue = self.lock();
        if !queue.dropped.is_empty() {
            return Some(Incoming::Dropped);
        }
        let Some(request) = queue.ready.pop_front() else {
            return (queue.mailboxes == 0).then_some(Incoming::Closed);
        };
        queue.refill(self.size);
        Some(Incoming::Request(request))
    }

    /// Notes that a subscription was dropped. Its channel is closed already.
    pub fn note_dropped(&self, number: u64) {
        let mut queue = self.lock();
        if !queue.is_closed {
            queue.dropped.push(number);
            drop(queue);
            self.notify.notify_one();
        }
    }

    pub fn take_dropped(&self) -> Vec<u64> {
        std::mem::take(&mut self.lock().dropped)
    }

    pub fn add_mailbox(&self) {
        self.lock().mailboxes += 1;
    }

    /// Notes that a mailbox was dropped.
    pub fn remove_mailbox(&self) {
        let mut queue = self.lock();
        queue.mailboxes -= 1;
        if queue.mailboxes == 0 {
            drop(queue);
            self.notify.notify_one();
        }
    }

    /// Gives up all requests, now and later. Returns how many waited.
    pub fn close(&self) -> usize {
        let mut queue = self.lock();
        queue.is_closed = true;
        queue.dropped = Vec::new();
        let given_up = (std::mem::take(&mut queue.ready), std::mem::take(&mut queue.overflow));
        // Dropping them may wake tasks, which is not done under the lock.
        drop(queue);
        given_up.0.len() + given_up.1.len()
    }
}

impl<P, M: Message> Queue<P, M> {
    /// Adds a request to the overflow, which grows only by requests that somebody still waits for.
    fn push_over(&mut self, request: Request<P, M>) {
        if self.overflow.len() >= self.bound {
            self.overflow.retain(|it| !it.is_closed());
            self.bound = (2 * self.overflow.len()).max(SPARE);
            self.overflow.shrink_to(self.bound);
        }
        self.overflow.push_back(request);
    }

    /// Moves requests from the overflow to the ready list.
    fn refill(&mut self, size: usize) {
        while self.ready.len() < size {
            let Some(next) = self.overflow.pop_front() else { break };
            if !next.is_closed() {
                self.ready.push_back(next);
            }
        }
        if self.overflow.is_empty() && self.overflow.capacity() > SPARE {
            (self.overflow, self.bound) = (VecDeque::new(), SPARE);
        }
    }
}

#[cfg(test)]
mod tests {
    use super::*;
    use bytes::Bytes;

    struct Text;

    impl Message for Text {
        type Digest = [u8; 32];
        type Config = ();
        type Error = ();

        fn encode(&self) -> Bytes {
            Bytes::new()
        }

        fn decode(_: Bytes, (): &()) -> Result<Text, ()> {
            Ok(Text)
        }

        fn digest(&self) -> [u8; 32] {
            [0; 32]
        }
    }

    type Reply = oneshot::Receiver<Option<Digested<Text>>>;

    fn get(number: u8) -> (Request<[u8; 32], Text>, Reply) {
        let (responder, receiver) = oneshot::channel();
        (Request::Get([number; 32], responder), receiver)
    }

    fn broadcast() -> Request<[u8; 32], Text> {
        Request::Broadcast(Recipients::All, Digested::new(Text))
    }

    /// Returns the numbers of the gets that are taken, and 255 for each broadcast.
    fn taken(inbox: &Inbox<[u8; 32], Text>) -> Vec<u8> {
        let number = |it: Incoming<[u8; 32], Text>| match it {
            Incoming::Request(Request::Get(digest, _)) => digest[0],
            _ => 255,
        };
        std::iter::from_fn(|| inbox.pop()).map(number).collect()
    }

    #[test]
    fn closed_requests_are_skipped_in_the_overflow_alone() {
        let inbox = Inbox::new(1);
        let mut replies = Vec::new();
        for number in 0..4 {
            let (request, reply) = get(number);
            let feedback = if number == 0 { Feedback::Ok } else { Feedback::Backoff };
            assert_eq!(inbox.enqueue(request), feedback);
            replies.push(reply);
        }
        assert_eq!(inbox.enqueue(broadcast()), Feedback::Backoff);
        replies[0].close(); // ready, so it is taken all the same
        replies[2].close();
        let (request, reply) = get(4);
        drop(reply);
        assert_eq!(inbox.enqueue(request), Feedback::Backoff); // discarded at once
        assert_eq!(taken(&inbox), [0, 1, 3, 255]);
        assert_eq!(inbox.enqueue(broadcast()), Feedback::Ok);
    }

    #[test]
    fn requests_that_were_given_up_do_not_stay() {
        let inbox = Inbox::new(1);
        let (first, _waits) = get(0);
        let _ = inbox.enqueue(first);
        for _ in 0..100_000 {
            let (request, reply) = get(1);
            assert_eq!(inbox.enqueue(request), Feedback::Backoff);
            drop(reply);
            assert!(inbox.lock().overflow.capacity() <= 4 * SPARE);
        }
        let waiting: Vec<_> = (0..10_000).map(|_| get(2)).collect();
        let queued = |(request, reply)| {
            let _ = inbox.enqueue(request);
            reply
        };
        let replies: Vec<Reply> = waiting.into_iter().map(queued).collect();
        assert_eq!(taken(&inbox), [vec![0], vec![2; 10_000]].concat());
        assert_eq!(inbox.lock().overflow.capacity(), 0);
        drop(replies);
    }

    #[test]
    fn an_inbox_closes_when_the_last_mailbox_and_request_are_gone() {
        let inbox = Inbox::new(1);
        inbox.add_mailbox();
        inbox.remove_mailbox();
        assert!(inbox.pop().is_none());
        let _ = inbox.enqueue(broadcast());
        inbox.remove_mailbox();
        assert!(matches!(inbox.pop(), Some(Incoming::Request(_))));
        assert!(matches!(inbox.pop(), Some(Incoming::Closed)));
    }

    #[test]
    fn a_closed_inbox_gives_up_all_requests() {
        let inbox = Inbox::new(1);
        let (request, mut reply) = get(0);
        let _ = inbox.enqueue(request);
        let _ = inbox.enqueue(broadcast());
        inbox.note_dropped(7);
        assert_eq!(inbox.close(), 2);
        assert_eq!(inbox.close(), 0);
        assert!(reply.try_recv().is_err());
        assert_eq!(inbox.enqueue(broadcast()), Feedback::Closed);
        assert_eq!(taken(&inbox), []);
    }
}
