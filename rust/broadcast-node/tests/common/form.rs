//! The form of a cache's calls of the library, which makes the law of a store speak of messages and callers: tickets and
//! handles are new, charges are lengths, and what a call reports is fetched before the next one.

use broadcast_node::recorder::{Call, Take};
use broadcast_node::{Digest, Key, Ticket};
use std::collections::{BTreeMap, BTreeSet};

/// How often the calls did what.
#[derive(Debug, Default)]
pub struct Seen {
    pub kept: u64,
    pub not_kept: u64,
    pub served: u64,
    pub left: u64,
    pub waits: u64,
    pub cleaned: u64,
    /// Of a snapshot, which takes each listed digest twice.
    pub charged_again: u64,
    /// The most tickets that waited for one digest.
    pub together: usize,
}

impl Seen {
    pub fn add(&mut self, more: &Seen) {
        self.kept += more.kept;
        self.not_kept += more.not_kept;
        self.served += more.served;
        self.left += more.left;
        self.waits += more.waits;
        self.cleaned += more.cleaned;
        self.charged_again += more.charged_again;
        self.together = self.together.max(more.together);
    }

    pub fn least(&self) -> u64 {
        let all = [self.kept, self.not_kept, self.served, self.left, self.waits, self.cleaned];
        all.into_iter().fold(self.charged_again, u64::min)
    }
}

/// What the next call has to be.
enum Next {
    Any,
    Served {
        tickets: usize,
        left: usize,
    },
    Left {
        handles: usize,
    },
    /// Moves out all that was evicted, whose number nothing reports.
    LeftAll,
    Charged(Key, Digest),
    Nothing,
}

struct Store {
    next: Next,
    /// The handles of messages that are cached, or left and were not moved out, with their digests.
    held: BTreeMap<u64, Digest>,
    drawn: BTreeSet<Ticket>,
    waiting: BTreeMap<Digest, BTreeSet<Ticket>>,
}

impl Store {
    fn new() -> Store {
        let (held, drawn, waiting) = (BTreeMap::new(), BTreeSet::new(), BTreeMap::new());
        Store { next: Next::Any, held, drawn, waiting }
    }

    fn take(&mut self, it: &Take, len: usize, seen: &mut Seen) {
        let is_new = !self.held.contains_key(&it.handle);
        let was_cached = self.held.values().any(|digest| *digest == it.digest);
        assert!(is_new || (was_cached && !it.kept), "the handle is another message's");
        *if it.kept { &mut seen.kept } else { &mut seen.not_kept } += 1;
        if it.kept {
            self.held.insert(it.handle, it.digest);
        }
        self.waiting.remove(&it.digest);
        self.next = match (it.served, it.left) {
            (0, 0) => Next::Any,
            (0, handles) => Next::Left { handles },
            (tickets, left) => Next::Served { tickets, left },
        };
        if it.charge != len {
            assert!(it.charge == 0 && was_cached && matches!(self.next, Next::Any), "the charge");
            self.next = Next::Charged(it.peer, it.digest);
            seen.charged_again += 1;
        }
    }

    fn left(&mut self, moved: &[u64], seen: &mut Seen) {
        for handle in moved {
            assert!(self.held.remove(handle).is_some(), "the handle is moved out twice");
            seen.left += 1;
        }
        self.next = Next::Any;
    }

    fn subscribe(&mut self, ticket: Ticket, digest: &Digest, waits: bool, seen: &mut Seen) {
        assert!(!self.drawn.contains(&ticket), "the ticket has waited before");
        if waits {
            self.drawn.insert(ticket);
            let waiting = self.waiting.entry(*digest).or_default();
            waiting.insert(ticket);
            seen.waits += 1;
            seen.together = seen.together.max(waiting.len());
        }
    }

    fn clean<'a>(
        &mut self,
        waiting: impl Iterator<Item = &'a mut BTreeSet<Ticket>>,
        tickets: &[Ticket],
        seen: &mut Seen,
    ) {
        assert!(tickets.iter().all(|it| self.drawn.contains(it)), "nobody drew the ticket");
        for it in waiting {
            let before = it.len();
            it.retain(|it| !tickets.contains(it));
            seen.cleaned += (before - it.len()) as u64;
        }
    }

    /// Looks at a call, and at what the call before it wants.
    fn look(&mut self, call: &Call, length_of: &impl Fn(&Digest) -> usize, seen: &mut Seen) {
        match (std::mem::replace(&mut self.next, Next::Any), call) {
            (Next::Served { tickets, left }, Call::Served(served)) => {
                assert_eq!(served.len(), tickets, "the room for served tickets");
                seen.served += tickets as u64;
                if left > 0 {
                    self.next = Next::Left { handles: left };
                }
            }
            (Next::Left { handles }, Call::Left(_, moved)) => {
                assert_eq!(moved.len(), handles, "not all evicted handles are moved out");
                self.left(moved, seen);
            }
            (Next::LeftAll, Call::Left(room, moved)) => {
                assert!(*room >= self.held.len(), "not all evicted handles may be moved out");
                self.left(moved, seen);
            }
            (Next::Charged(peer, digest), Call::Take(it)) => {
                assert_eq!((it.peer, it.digest), (peer, digest), "the charge stays 0");
                assert_eq!(it.charge, length_of(&digest), "the charge that is put back");
                self.take(it, it.charge, seen);
            }
            (Next::Any, Call::Peers(_)) => self.next = Next::LeftAll,
            (Next::Any, Call::Take(it)) => self.take(it, length_of(&it.digest), seen),
            (Next::Any, Call::Subscribe(ticket, digest, waits)) => {
                self.subscribe(*ticket, digest, *waits, seen);
            }
            (Next::Any, Call::Cleanup(tickets)) => {
                let mut waiting = std::mem::take(&mut self.waiting);
                self.clean(waiting.values_mut(), tickets, seen);
                self.waiting = waiting;
            }
            (Next::Any, Call::CleanupOf(digest, tickets)) => {
                let mut waiting = self.waiting.remove(digest).unwrap_or_default();
                self.clean([&mut waiting].into_iter(), tickets, seen);
                self.waiting.insert(*digest, waiting);
            }
            (Next::Any, Call::Free) => self.next = Next::Nothing,
            _ => panic!("it does not come now"),
        }
    }
}

/// Looks at the calls of all stores. `length_of` returns the length of the digest's message. Panics at the first call that is
/// not of the form.
pub fn look_at(calls: &[(u64, Call)], length_of: impl Fn(&Digest) -> usize) -> Seen {
    let (mut stores, mut seen) = (BTreeMap::new(), Seen::default());
    for (at, (number, call)) in calls.iter().enumerate() {
        let _context = Context(at, call);
        match (stores.get_mut(number), call) {
            (None, Call::New) => drop(stores.insert(*number, Store::new())),
            (Some(store), call) => store.look(call, &length_of, &mut seen),
            (None, _) => panic!("there is no store"),
        }
    }
    assert!(stores.values().all(|it| matches!(it.next, Next::Nothing)), "a store is not freed");
    seen
}

/// Prints a call that is not of the form.
struct Context<'a>(usize, &'a Call);

impl Drop for Context<'_> {
    fn drop(&mut self) {
        if std::thread::panicking() {
            eprintln!("call {}: {:?}", self.0, self.1);
        }
    }
}
