//! Who takes part: this relay and its peers, the number that each has in the protocol, and the place of its one connection.
//!
//! Nothing here has a clock: times are arguments.

use crate::config::PeerConfig;
use crate::gossip::{Bar, Bucket, Past, SECOND, Time};
use crate::identity::{PeerId, PublicKey};
use crate::journal::Journal;
use crate::lock::Mutex;
use crate::message::{Seal, Signed};
use crate::trouble::Trouble;
use std::collections::{HashMap, VecDeque};
use std::io;
use std::path::Path;
use std::sync::Arc;
use std::sync::atomic::{AtomicU64, Ordering::Relaxed};
use tokio::sync::Notify;

/// How many checked signatures of an author are remembered.
const SEALS: usize = 64;
/// After a ban ended so long ago, the next is again like the first.
const FORGIVEN: Time = 600 * SECOND;
/// A connection of which nothing was heard for so long may always be replaced.
const QUIET: Time = 3 * SECOND;
/// How often it is logged in a second that a peer comes or goes, and how often at once.
const LOGGED: (u64, u64) = (1, 10);

/// A node as the configuration has it. After a change of that another one has the same number and author.
#[derive(Debug)]
pub struct Peer {
    /// Its name, key and address.
    pub config: PeerConfig,
    /// Its number in the protocol.
    pub node: usize,
    /// Whoever locks it is the only one that takes a message of the author.
    pub(crate) author: Arc<Mutex<Author>>,
}

/// What is known of an author beside its log.
#[derive(Debug, Default)]
pub(crate) struct Author {
    pub journal: Option<Journal>,
    key: Option<PublicKey>,
    seals: VecDeque<Seal>,
}

impl Author {
    /// Opens the journal of an author, if there is to be one. Returns besides what it had.
    pub fn open(
        folder: Option<&Path>,
        id: &PeerId,
        most: u64,
    ) -> io::Result<(Arc<Mutex<Author>>, Past)> {
        let (mut author, mut past) = (Author::default(), Past::default());
        if let Some(folder) = folder {
            let (journal, had) = Journal::open(folder, id, most)?;
            (author.journal, past) = (Some(journal), had);
        }
        Ok((Arc::new(Mutex::new(author)), past))
    }

    /// Checks that the author signed a message. Returns how many signatures that took: that of a batch is checked once.
    pub fn check(&mut self, message: &Signed) -> Result<u64, &'static str> {
        let seal = message.seal();
        if self.seals.contains(&seal) {
            return Ok(0);
        }
        if self.key.is_none() {
            self.key = message.key();
        }
        if !self.key.as_ref().is_some_and(|it| seal.is_of(it)) {
            return Err("a wrong signature");
        }
        self.seals.truncate(SEALS - 1);
        self.seals.push_front(seal);
        Ok(1)
    }
}

/// A connection whose peer has proved its key.
#[derive(Debug)]
pub struct Connection {
    /// The other side, as it was listed when the connection began.
    pub peer: Arc<Peer>,
    /// Whether this side dialed.
    pub is_dialed: bool,
    /// Notified when something may be written.
    pub due: Notify,
    /// Notified when the connection is to end, as when another has taken its place.
    pub ended: Notify,
    heard: AtomicU64,
}

impl Connection {
    pub(crate) fn new(now: Time, peer: Arc<Peer>, is_dialed: bool) -> Connection {
        let (due, ended) = (Notify::new(), Notify::new());
        Connection { peer, is_dialed, due, ended, heard: now.into() }
    }

    /// Notes that something was heard of the peer.
    pub fn hear(&self, now: Time) {
        self.heard.store(now, Relaxed);
    }
}

/// What is counted of a node since the start: as an author and as a peer.
#[derive(Clone, Copy, Debug, Default, PartialEq, Eq)]
pub(crate) struct Counts {
    pub delivered: u64,
    pub again: u64,
    pub left_out: u64,
    /// Its messages and reports of unlisted authors.
    pub unlisted: u64,
    pub invalid: u64,
    /// For how many seconds it stood still.
    pub stalled: u64,
    /// How often a new connection replaced one that had not ended.
    pub replaced: u64,
}

/// The place of a node's one connection, and what the node did before.
#[derive(Debug)]
pub(crate) struct Seat {
    pub is_listed: bool,
    pub connection: Option<Arc<Connection>>,
    pub counts: Counts,
    /// What an operator is to hear of it.
    pub troubles: [Trouble; 4],
    bar: Bar,
    logged: Bucket,
    /// How often its connection was replaced since when.
    replaced: u32,
    since: Time,
}

impl Seat {
    fn new() -> Seat {
        Seat {
            is_listed: true,
            connection: None,
            counts: Counts::default(),
            troubles: Default::default(),
            bar: Bar::default(),
            logged: Bucket::new(LOGGED.0, LOGGED.1),
            replaced: 0,
            since: 0,
        }
    }

    pub fn is_banned(&self, now: Time) -> bool {
        self.bar.until(now).is_some()
    }

    /// Gives the place to a new connection. It replaces the old one, unless both were dialed at once and both sides prefer the old one,
    /// which lives: they keep that which the lesser id dialed. Returns whether it replaces one.
    fn attach(
        &mut self,
        now: Time,
        new: Arc<Connection>,
        is_lesser: bool,
    ) -> Result<bool, &'static str> {
        if self.is_banned(now) {
            return Err("it broke the rules");
        }
        if let Some(old) = &self.connection {
            let prefers_old = old.is_dialed == is_lesser && new.is_dialed != old.is_dialed;
            if prefers_old && now.saturating_sub(old.heard.load(Relaxed)) < QUIET {
                return Err("another connection stays");
            }
            old.ended.notify_one();
            self.counts.replaced += 1;
            self.replaced += 1;
        }
        Ok(self.connection.replace(new).is_some())
    }

    /// Whether it is to be said that the peer's connection is replaced again and again: five times in a minute.
    fn is_twofold(&mut self, now: Time) -> bool {
        if now >= self.since + 60 * SECOND {
            (self.since, self.replaced) = (now, 0);
        }
        let is_due = self.replaced >= 5;
        self.replaced *= u32::from(!is_due);
        is_due
    }

    /// Refuses the peer for a while, the longer the more often. Returns for how long.
    pub fn ban(&mut self, now: Time) -> Time {
        self.counts.invalid += 1;
        self.bar.fail(now, FORGIVEN)
    }

    /// Whether it is to be logged that the peer comes or goes: not again and again.
    pub fn is_logged(&mut self, now: Time) -> bool {
        let is_due = self.logged.level(now) > 0;
        if is_due {
            self.logged.charge(now, 1);
        }
        is_due
    }
}

/// How a new connection is to be logged: it replaces another one, and that again and again.
#[derive(Clone, Copy, Debug, PartialEq, Eq)]
pub(crate) struct Attached {
    pub is_logged: bool,
    pub replaces: bool,
    pub is_twofold: bool,
}

/// This relay, which is the first, and all peers that were ever listed.
#[derive(Debug, Default)]
pub(crate) struct Registry {
    numbers: HashMap<PeerId, usize>,
    peers: Vec<Arc<Peer>>,
    pub seats: Vec<Seat>,
}

impl Registry {
    /// This relay and its peers, as the configuration has them now.
    pub fn listed(&self) -> impl Iterator<Item = &Arc<Peer>> {
        self.peers.iter().filter(|it| self.seats[it.node].is_listed)
    }

    pub fn connections(&self) -> impl Iterator<Item = &Arc<Connection>> {
        self.seats.iter().flat_map(|it| &it.connection)
    }

    /// Finds who is listed.
    pub fn find(&self, id: &PeerId) -> Option<&Arc<Peer>> {
        let peer = &self.peers[*self.numbers.get(id)?];
        self.seats[peer.node].is_listed.then_some(peer)
    }

    /// Whether a peer was ever listed.
    pub fn knows(&self, id: &PeerId) -> bool {
        self.numbers.contains_key(id)
    }

    pub fn key(&self, node: usize) -> &PeerId {
        &self.peers[node].config.key
    }

    /// Whether a key is that of a peer, and no ban lasts.
    pub fn admits(&self, now: Time, id: &PeerId) -> bool {
        self.find(id).is_some_and(|it| it.node != 0 && !self.seats[it.node].is_banned(now))
    }

    /// Whether a peer is not connected, and no ban lasts. None if it is not listed any more, or has changed.
    pub fn is_free(&self, now: Time, peer: &Arc<Peer>) -> Option<bool> {
        let seat = &self.seats[peer.node];
        let is_listed = self.find(&peer.config.key).is_some_and(|it| Arc::ptr_eq(it, peer));
        is_listed.then(|| seat.connection.is_none() && !seat.is_banned(now))
    }

    /// Lists a node. A key keeps its number for ever.
    pub fn list(&mut self, config: &PeerConfig, author: Arc<Mutex<Author>>) -> Arc<Peer> {
        let node = *self.numbers.entry(config.key).or_insert(self.peers.len());
        let peer = Arc::new(Peer { config: config.clone(), node, author });
        if node == self.peers.len() {
            self.peers.push(peer.clone());
            self.seats.push(Seat::new());
        }
        self.peers[node] = peer.clone();
        self.seats[node].is_listed = true;
        peer
    }

    /// Lists a peer no more, and ends its connection.
    pub fn remove(&mut self, node: usize) {
        let seat = &mut self.seats[node];
        seat.is_listed = false;
        seat.connection.take().iter().for_each(|it| it.ended.notify_one());
    }

    /// Gives the place of a peer to a new connection, or says why not.
    pub fn attach(
        &mut self,
        now: Time,
        id: &PeerId,
        is_dialed: bool,
    ) -> Result<(Arc<Connection>, Attached), &'static str> {
        let peer = self.find(id).ok_or("it is not listed")?.clone();
        let (node, is_lesser) = (peer.node, self.key(0) < id);
        let (new, seat) = (Arc::new(Connection::new(now, peer, is_dialed)), &mut self.seats[node]);
        let replaces = seat.attach(now, new.clone(), is_lesser)?;
        let (is_logged, is_twofold) = (seat.is_logged(now), seat.is_twofold(now));
        Ok((new, Attached { is_logged, replaces, is_twofold }))
    }

    /// Whether a connection has its peer's place.
    pub fn holds(&self, connection: &Connection) -> bool {
        let holder = &self.seats[connection.peer.node].connection;
        holder.as_ref().is_some_and(|it| std::ptr::eq(&**it, connection))
    }
}

#[cfg(test)]
mod tests {
    use super::*;
    use std::time::Duration;
    use tokio::time::timeout;

    fn config(number: u8) -> PeerConfig {
        PeerConfig { name: format!("n{number}"), key: [number; 32], address: None }
    }

    /// A relay with this number, and peers with the numbers from 1 on.
    fn registry(own: u8, peers: u8) -> Registry {
        let mut registry = Registry::default();
        registry.list(&config(own), Arc::default());
        (1..=peers).for_each(|it| drop(registry.list(&config(it), Arc::default())));
        registry
    }

    fn attach(
        registry: &mut Registry,
        is_dialed: bool,
    ) -> Result<(Arc<Connection>, Attached), &'static str> {
        registry.attach(0, &[1; 32], is_dialed)
    }

    #[test]
    fn a_key_keeps_its_number_and_its_place_while_it_is_not_listed() {
        let mut registry = registry(9, 3);
        let (connection, _) = attach(&mut registry, false).unwrap();
        let old = registry.find(&[1; 32]).unwrap().clone();
        assert_eq!((old.node, registry.is_free(0, &old)), (1, Some(false)));
        registry.remove(1);
        assert!(registry.find(&[1; 32]).is_none() && !registry.holds(&connection));
        assert!(!registry.admits(0, &[1; 32]) && attach(&mut registry, false).is_err());
        assert_eq!((registry.listed().count(), registry.is_free(0, &old)), (3, None));
        let new = registry.list(&config(1), Arc::default());
        assert!(new.node == 1 && registry.admits(0, &[1; 32]));
        // Who dials the peer as it was listed before gives up.
        assert_eq!([&old, &new].map(|it| registry.is_free(0, it)), [None, Some(true)]);
        // Neither this relay nor who was never listed is let in.
        assert!(!registry.admits(0, &[9; 32]) && !registry.admits(0, &[4; 32]));
    }

    #[tokio::test(start_paused = true)]
    async fn a_newer_connection_replaces_the_older() {
        let mut registry = registry(9, 1);
        let (first, attached) = attach(&mut registry, false).unwrap();
        assert!(registry.holds(&first) && !attached.replaces);
        let (second, attached) = attach(&mut registry, false).unwrap();
        assert!(registry.holds(&second) && !registry.holds(&first) && attached.replaces);
        assert!(timeout(Duration::from_secs(9), first.ended.notified()).await.is_ok());
        assert_eq!(registry.seats[1].counts.replaced, 1);
    }

    #[test]
    fn a_key_in_two_places_is_noticed() {
        let mut registry = registry(9, 1);
        let mut is_twofold = |now| registry.attach(now, &[1; 32], false).unwrap().1.is_twofold;
        // Once in a while a connection is replaced, as where a peer's address changes.
        assert!((0..9).all(|minute| !is_twofold(minute * 60 * SECOND)));
        assert_eq!((0..12).filter(|_| is_twofold(600 * SECOND)).count(), 2);
    }

    #[test]
    fn of_two_that_were_dialed_at_once_both_sides_keep_one() {
        // Own id below the peer's: the dialed one stays. Above: the accepted one.
        for (own, is_lesser) in [(0, true), (9, false)] {
            for first in [true, false] {
                let mut registry = registry(own, 1);
                attach(&mut registry, first).unwrap();
                assert_eq!(attach(&mut registry, !first).is_err(), first == is_lesser);
            }
        }
    }

    #[test]
    fn a_banned_peer_is_refused() {
        let mut registry = registry(9, 1);
        let bans = [(); 3].map(|()| registry.seats[1].ban(0));
        assert_eq!(bans, [SECOND, 2 * SECOND, 4 * SECOND]);
        assert_eq!(attach(&mut registry, true).err(), Some("it broke the rules"));
        assert!(!registry.admits(4 * SECOND - 1, &[1; 32]));
        assert!(registry.admits(4 * SECOND, &[1; 32]));
    }

    #[test]
    fn who_comes_again_and_again_is_logged_seldom() {
        let mut seat = Seat::new();
        assert_eq!((0..300).filter(|_| seat.is_logged(0)).count(), 10);
    }
}
