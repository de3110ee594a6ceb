//! What is called of a cache: steps that are repeated, over a state to which each round of them comes back.

use crate::sides::{Bytes32, Shared, Side};
use std::hint::black_box;
use std::ops::Range;

/// The bytes of a message.
const LEN: usize = 100;
/// The digests on a list, where a row does not say another number.
const SIZE: usize = 10;
/// How many peers have the lists that are copied.
const LISTS: usize = 16;
/// The fewest calls of a round.
const CALLS: usize = 20_000;

/// The calls that are measured, and what their number in a row counts.
#[derive(Clone, Copy, PartialEq)]
pub enum Call {
    /// Takes, by the number of peers with lists of 10. Some four peers send each message, at about the same time.
    Takes,
    /// Gets of a message that is cached, by the number of cached messages. It is cloned, as a caller would.
    Gets,
    /// Lists, by their length. Each message is on some four of 16 lists.
    Lists,
    /// A subscribe and the cancel of an older one, by the number of subscriptions that wait, each for its digest.
    Subscribes,
}

/// A generator of numbers (splitmix).
struct Random(u64);

impl Random {
    fn next(&mut self) -> u64 {
        self.0 = self.0.wrapping_add(0x9e37_79b9_7f4a_7c15);
        let mut z = self.0;
        z = (z ^ (z >> 30)).wrapping_mul(0xbf58_476d_1ce4_e5b9);
        z = (z ^ (z >> 27)).wrapping_mul(0x94d0_49bb_1331_11eb);
        z ^ (z >> 31)
    }

    fn bytes(&mut self) -> Bytes32 {
        let mut out = [0; 32];
        for part in out.chunks_exact_mut(8) {
            part.copy_from_slice(&self.next().to_le_bytes());
        }
        out
    }

    fn place(&mut self, n: usize) -> usize {
        (self.next() % n as u64) as usize
    }
}

/// The calls of a row, and what they are made with.
pub struct Load {
    call: Call,
    number: usize,
    size: usize,
    keys: Vec<Bytes32>,
    digests: Vec<Bytes32>,
    messages: Vec<Shared>,
    /// The takes, by peer and message, after which a cache is as each round begins with it.
    fill: Vec<(usize, usize)>,
    /// The calls of a round: peer and message of a take; message of a get; peer of a list; the digest of a subscribe, and
    /// that of a cancel.
    steps: Vec<(usize, usize)>,
}

/// A cache that was filled, and the tickets that wait, by their digests.
pub struct State<S: Side> {
    pub side: S,
    tickets: Vec<Option<S::Ticket>>,
}

impl Load {
    pub fn new(call: Call, number: usize) -> Load {
        let mut random = Random(7);
        let (peers, size, digests) = match call {
            Call::Takes => (number, SIZE, (8 * number).max(CALLS)),
            Call::Gets => (number / SIZE, SIZE, number),
            Call::Lists => (LISTS, number, 8 * number),
            Call::Subscribes => (1, SIZE, 2 * number),
        };
        let near = |random: &mut Random| -> Vec<(usize, usize)> {
            let take = |n: usize| (random.place(peers), (n / 4).saturating_sub(random.place(8)));
            (0..4 * digests).map(take).collect()
        };
        let (fill, steps): (Vec<_>, Vec<_>) = match call {
            Call::Takes => (near(&mut random), Vec::new()),
            Call::Gets => (
                (0..number).map(|n| (n / SIZE, n)).collect(),
                (0..CALLS).map(|_| (random.place(number), 0)).collect(),
            ),
            Call::Lists => (
                near(&mut random),
                (0..CALLS.min(2_000_000 / number)).map(|_| (random.place(peers), 0)).collect(),
            ),
            Call::Subscribes => {
                let calls = digests * CALLS.div_ceil(digests);
                let step = |n| ((n + number) % digests, n % digests);
                (Vec::new(), (0..calls).map(step).collect())
            }
        };
        let steps = if call == Call::Takes { fill.clone() } else { steps };
        let messages = if call == Call::Subscribes { 0 } else { digests };
        Load {
            call,
            number,
            size,
            keys: (0..peers).map(|_| random.bytes()).collect(),
            digests: (0..digests).map(|_| random.bytes()).collect(),
            messages: (0..messages).map(|n| Shared::from([n as u8; LEN])).collect(),
            fill,
            steps,
        }
    }

    /// How many calls a round has.
    pub fn calls(&self) -> usize {
        self.steps.len()
    }

    /// Makes a cache, and fills it.
    pub fn state<S: Side>(&self) -> State<S> {
        let mut side = S::new(self.size, &self.keys);
        for (peer, message) in &self.fill {
            side.take(*peer, &self.digests[*message], &self.messages[*message]);
        }
        let mut tickets = Vec::new();
        if self.call == Call::Subscribes {
            let (waiting, others) = self.digests.split_at(self.number);
            tickets.extend(waiting.iter().map(|it| Some(side.subscribe(it))));
            tickets.extend(others.iter().map(|_| None));
        }
        State { side, tickets }
    }

    /// Fails if the two caches have other messages or other lists.
    pub fn compare<S: Side, T: Side>(&self, one: &State<S>, other: &State<T>) {
        let (one, other) = (&one.side, &other.side);
        assert_eq!(one.cached(), other.cached());
        assert!(self.digests.iter().all(|it| one.get(it) == other.get(it)));
        for peer in 0..self.keys.len() {
            let one: Vec<Bytes32> = one.list(peer).into_iter().map(Into::into).collect();
            assert_eq!(one, other.list(peer).into_iter().map(Into::into).collect::<Vec<Bytes32>>());
        }
    }
}

/// Makes some of the calls of a round. Valgrind counts the instructions of this function.
#[inline(never)]
pub fn measured_calls<S: Side>(load: &Load, state: &mut State<S>, calls: Range<usize>) {
    let State { side, tickets } = state;
    let steps = load.steps[calls].iter();
    match load.call {
        Call::Takes => steps.for_each(|(peer, message)| {
            side.take(*peer, &load.digests[*message], &load.messages[*message]);
        }),
        Call::Gets => steps.for_each(|(message, _)| {
            black_box(side.get(&load.digests[*message]).cloned());
        }),
        Call::Lists => steps.for_each(|(peer, _)| {
            black_box(side.list(*peer).len());
        }),
        Call::Subscribes => steps.for_each(|(new, old)| {
            tickets[*new] = Some(side.subscribe(&load.digests[*new]));
            let ticket = tickets[*old].take().expect("it waits");
            assert!(side.cancel(&load.digests[*old], ticket));
        }),
    }
}
