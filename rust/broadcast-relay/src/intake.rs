//! A relay without a network: what comes in is checked, journaled, given to the protocol and delivered, in this order.
//!
//! Nothing here has a clock or a transport: times are arguments, and whoever carries bytes calls [`Intake::attach`] once a peer has
//! proved its key, writes what [`Intake::fill`] returns whenever [`Connection::due`] is notified, and passes on what it reads.

use crate::config::PeerConfig;
use crate::gossip::{Bounds, Frame, Machine, Message, NEVER, Past, Report, Taken, Time};
use crate::identity::{Identity, PeerId};
use crate::invalid;
use crate::lock::Mutex;
use crate::message::Signed;
use crate::registry::{Author, Counts, Registry};
pub use crate::registry::{Connection, Peer};
use crate::trouble::Trouble;
use crate::wire::Packet;
use std::io::{self, ErrorKind};
use std::path::PathBuf;
use std::sync::atomic::{AtomicBool, AtomicU64, Ordering::Relaxed};
use std::sync::{Arc, MutexGuard};
use std::time::Duration;
use std::{fmt, slice};
use tokio::sync::Notify;
use tracing::{debug, info, warn};

/// The longest round trip, in microseconds, that a peer has that dials, unless this relay dials a peer that is farther away.
const ACCEPTED: Time = 50_000;
/// By how many nanoseconds a stamp may be later than this relay's clock. A later one waits at its author.
const AHEAD: u64 = 24 * 3_600 * 1_000_000_000;
/// The number of this relay.
const OWN: usize = 0;

/// Called with each new message of a peer and its author, once it is journaled.
pub type Deliver = Box<dyn Fn(&Peer, &Signed) + Send + Sync>;

/// A relay without a network.
pub struct Intake {
    /// Its key.
    pub identity: Identity,
    /// Notified when the time that [`Intake::plan`] returned is too late.
    pub earlier: Notify,
    published: AtomicU64,
    elsewhere: AtomicU64,
    wakes: AtomicU64,
    own: Arc<Peer>,
    shared: Mutex<Shared>,
    opened: Notify,
    is_ending: AtomicBool,
    /// Why a journal is not written, if it is not.
    unwritten: Mutex<Option<String>>,
    signature_cost: u64,
    journal: Option<PathBuf>,
    most: u64,
    deliver: Deliver,
}

impl fmt::Debug for Intake {
    fn fmt(&self, f: &mut fmt::Formatter<'_>) -> fmt::Result {
        f.debug_struct("Intake").field("identity", &self.identity).finish_non_exhaustive()
    }
}

/// The protocol, and what its numbers mean.
struct Shared {
    machine: Machine,
    registry: Registry,
    /// The latest time so far.
    now: Time,
    /// The time that `plan` returned.
    planned: Time,
    /// The longest round trip of a connection that was dialed.
    farthest: Time,
    /// The stamp of the first own message.
    first: Option<u64>,
    elsewhere: Trouble,
}

impl Shared {
    /// Lists a node, with what its journal had, or as another one that has the same number and author.
    fn list(
        &mut self,
        now: Time,
        config: &PeerConfig,
        author: Arc<Mutex<Author>>,
        past: Option<Past>,
    ) -> Arc<Peer> {
        let is_new = !self.registry.knows(&config.key);
        let peer = self.registry.list(config, author);
        if let Some(mut past) = past {
            past.messages.iter_mut().for_each(|it| it.author = peer.node);
            match is_new {
                true => drop(self.machine.add(now, past)),
                false => self.machine.restore(now, peer.node, past),
            }
        }
        peer
    }
}

type Count = fn(&Standing) -> u64;

/// What is logged of a node when it begins to be counted, and when it has not been counted for a while.
const TROUBLES: [(&str, Count); 4] = [
    ("it stands still: nobody waits for it any more", |it| it.counts.stalled),
    ("what it lacks leaves the lists", |it| it.left_behind),
    ("lost: no connected peer has it any more", |it| it.lost),
    ("it lists authors that this relay does not list", |it| it.counts.unlisted),
];

/// How a node does.
pub(crate) struct Standing {
    pub name: String,
    pub is_peer: bool,
    pub is_connected: bool,
    pub is_held: bool,
    pub is_stalled: bool,
    pub lost: u64,
    pub left_behind: u64,
    pub counts: Counts,
}

impl Intake {
    /// Makes a relay without peers. The check of a signature is charged to its author as so many bytes. Whoever has a folder with a
    /// journal holds [`crate::journal::lock_folder`].
    pub fn new(
        identity: Identity,
        bounds: Bounds,
        signature_cost: u64,
        journal: Option<PathBuf>,
        deliver: Deliver,
    ) -> io::Result<Intake> {
        let own = PeerConfig { name: "own".into(), key: identity.id, address: None };
        let most = bounds.list;
        let (author, past) = Author::open(journal.as_deref(), &own.key, most)?;
        let mut shared = Shared {
            machine: Machine::new(bounds, OWN, rand::random()),
            registry: Registry::default(),
            now: 0,
            planned: NEVER,
            farthest: ACCEPTED,
            first: None,
            elsewhere: Trouble::default(),
        };
        Ok(Intake {
            own: shared.list(0, &own, author, Some(past)),
            identity,
            earlier: Notify::new(),
            published: AtomicU64::new(0),
            elsewhere: AtomicU64::new(0),
            wakes: AtomicU64::new(0),
            shared: Mutex::new(shared),
            opened: Notify::new(),
            is_ending: AtomicBool::new(false),
            unwritten: Mutex::new(None),
            signature_cost,
            journal,
            most,
            deliver,
        })
    }

    /// Makes the peers those of a list. Returns those that are new or have changed. After an error nothing has changed.
    pub fn set_peers(&self, now: Time, peers: &[PeerConfig]) -> io::Result<Vec<Arc<Peer>>> {
        if peers.iter().any(|it| it.key == self.identity.id) {
            return Err(io::Error::other("the own key is among the peers"));
        }
        let mut changed = Vec::new();
        for it in peers {
            let old = self.shared.lock().registry.find(&it.key).cloned();
            match old {
                Some(old) if old.config == *it => {}
                Some(old) => changed.push((it, old.author.clone(), None)),
                None => {
                    let (author, past) = Author::open(self.journal.as_deref(), &it.key, self.most)?;
                    changed.push((it, author, Some(past)));
                }
            }
        }
        let stays = |old: &Peer| peers.iter().any(|it| it.key == old.config.key);
        let mut gone: Vec<_> = self.shared.lock().registry.listed().skip(1).cloned().collect();
        gone.retain(|it| !stays(it));
        for it in gone {
            info!(peer = it.config.name, "removed");
            self.act(now, |shared, now| {
                shared.registry.remove(it.node);
                shared.machine.remove(now, it.node);
            });
            it.author.lock().journal = None;
        }
        let list = |(config, author, past): (&PeerConfig, _, Option<_>)| {
            self.act(now, |shared, now| {
                if past.is_some() && shared.registry.knows(&config.key) {
                    // Who is listed again has lost what came meanwhile, and peers send that only over new connections.
                    shared.registry.connections().for_each(|it| it.ended.notify_one());
                }
                shared.list(now, config, author, past)
            })
        };
        Ok(changed.into_iter().map(list).collect())
    }

    /// Whether a key is that of a peer, and no ban lasts.
    pub fn admits(&self, now: Time, id: &PeerId) -> bool {
        self.at(now).0.registry.admits(now, id)
    }

    /// Whether a peer is not connected, and no ban lasts. None if it is not listed any more, or has changed.
    pub fn is_free(&self, now: Time, peer: &Arc<Peer>) -> Option<bool> {
        self.at(now).0.registry.is_free(now, peer)
    }

    // Time.

    /// Locks what is shared. Whoever waited for that gets a time that is no earlier than others got meanwhile.
    fn at(&self, now: Time) -> (MutexGuard<'_, Shared>, Time) {
        let mut shared = self.shared.lock();
        shared.now = shared.now.max(now);
        let now = shared.now;
        (shared, now)
    }

    /// Does something with the protocol, and wakes whoever has something to do then.
    fn act<T>(&self, now: Time, act: impl FnOnce(&mut Shared, Time) -> T) -> T {
        let (mut shared, now) = self.at(now);
        let done = act(&mut shared, now);
        for peer in shared.machine.take_woken() {
            shared.registry.seats[peer].connection.iter().for_each(|it| it.due.notify_one());
        }
        if shared.machine.may_publish() {
            self.opened.notify_one();
        }
        if shared.machine.next_time() < shared.planned {
            self.earlier.notify_one();
        }
        done
    }

    /// Returns when [`Intake::timeout`] is due, unless [`Intake::earlier`] is notified before.
    pub fn plan(&self) -> Time {
        let mut shared = self.shared.lock();
        shared.planned = shared.machine.next_time();
        shared.planned
    }

    /// Does what is due by now.
    pub fn timeout(&self, now: Time) {
        self.wakes.fetch_add(1, Relaxed);
        self.act(now, |shared, now| shared.machine.timeout(now));
    }

    // Connections.

    /// Gives the place of a peer to a new connection, if it may have it.
    pub fn attach(
        &self,
        now: Time,
        id: &PeerId,
        is_dialed: bool,
        round_trip: Duration,
    ) -> Option<Arc<Connection>> {
        self.act(now, |shared, now| {
            let (new, attached) = shared
                .registry
                .attach(now, id, is_dialed)
                .inspect_err(|why| debug!(why, "refused"))
                .ok()?;
            let (name, node) = (&new.peer.config.name, new.peer.node);
            if attached.is_logged {
                info!(peer = name, is_dialed, replaces = attached.replaces, "connected");
            }
            if attached.is_twofold {
                warn!(peer = name, "replaced again and again: is its key in two places?");
            }
            shared.machine.disconnect(now, node);
            let mut far = round_trip.as_micros() as Time;
            match is_dialed {
                true => shared.farthest = shared.farthest.max(far),
                // What was measured is what the peer chose.
                false => far = far.min(shared.farthest),
            }
            shared.machine.connect(now, node, far);
            Some(new)
        })
    }

    /// Gives up the place of a connection. A peer that broke the rules, which [`ErrorKind::InvalidData`] says, is refused for a while.
    pub fn detach(&self, now: Time, connection: &Connection, why: &io::Error) {
        let (name, node) = (&connection.peer.config.name, connection.peer.node);
        self.act(now, |shared, now| {
            let (is_current, seat) =
                (shared.registry.holds(connection), &mut shared.registry.seats[node]);
            if why.kind() == ErrorKind::InvalidData {
                let ban = Duration::from_micros(seat.ban(now));
                warn!(peer = name, %why, ?ban, "broke the rules");
            }
            if is_current {
                seat.connection = None;
                if seat.is_logged(now) {
                    info!(peer = name, %why, "away");
                }
                shared.machine.disconnect(now, node);
            }
        });
    }

    /// Adds to what is written to a peer, up to some bytes.
    pub fn fill(&self, now: Time, connection: &Connection, most: usize, out: &mut Vec<u8>) {
        let (mut shared, now) = self.at(now);
        let Shared { machine, registry, .. } = &mut *shared;
        while out.len() < most
            && registry.holds(connection)
            && let Some(frame) = machine.frame(now, connection.peer.node)
        {
            let packet = match frame {
                Frame::Message(message) => Packet::Message(message.bytes),
                Frame::Report(author, report) => Packet::Report(*registry.key(author), report),
            };
            packet.encode(out);
        }
    }

    /// Lets each connection end once its peer has all own messages.
    pub fn end(&self) {
        self.is_ending.store(true, Relaxed);
        self.shared.lock().registry.connections().for_each(|it| it.due.notify_one());
    }

    /// Whether this relay ends, and a peer has all own messages, as far as it has said.
    pub fn is_over(&self, connection: &Connection) -> bool {
        let is_ending = self.is_ending.load(Relaxed);
        is_ending && !self.shared.lock().machine.lacks_own(connection.peer.node)
    }

    // What comes in.

    /// Takes a peer's report of an author.
    pub fn hear(&self, now: Time, from: &Connection, author: &PeerId, report: Report) {
        let peer = from.peer.node;
        self.act(now, |Shared { machine, registry, .. }, now| {
            if !registry.holds(from) {
                return;
            }
            match registry.find(author).map(|it| it.node) {
                Some(author) => machine.report(now, peer, author, report),
                None => registry.seats[peer].counts.unlisted += 1,
            }
        });
        // What it lacks may be no more.
        if self.is_ending.load(Relaxed) {
            from.due.notify_one();
        }
    }

    /// Takes a message: checks the signature, journals it and delivers it, if it is wanted, at some nanoseconds since 1970. Returns what became of it. A wrong message
    /// is [`ErrorKind::InvalidData`]; after any error nothing was taken.
    pub fn take(
        &self,
        now: Time,
        clock: u64,
        from: &Connection,
        message: Signed,
    ) -> io::Result<Taken> {
        let peer = from.peer.node;
        let author = self.shared.lock().registry.find(&message.author).cloned();
        let Some(author) = author else {
            self.shared.lock().registry.seats[peer].counts.unlisted += 1;
            return Ok(Taken::Unlisted);
        };
        let (node, mut cost) = (author.node, 0);
        let mut known = author.author.lock();
        let it = item(node, &message);
        let (mut shared, now) = self.at(now);
        shared.machine.set_latest(clock + AHEAD);
        let is_wanted = shared.machine.wants(now, peer, &it);
        drop(shared);
        if is_wanted {
            cost = known.check(&message).map_err(invalid)? * self.signature_cost;
            // An own message that comes back is not journaled: the journal has those after which the next one comes.
            if let Some(journal) = &mut known.journal
                && node != OWN
            {
                self.note_written(journal.append(slice::from_ref(&message)))?;
            }
        }
        let taken = self.act(now, |shared, now| {
            shared.machine.charge(now, node, cost);
            // What came over a connection that is replaced is not of the new one.
            let current = shared.registry.holds(from).then_some(peer);
            let taken = shared.machine.message(now, current, it, is_wanted);
            let seats = &mut shared.registry.seats;
            match taken {
                Ok(Taken::New) => seats[node].counts.delivered += u64::from(node != OWN),
                Ok(Taken::Again) => seats[peer].counts.again += 1,
                Ok(Taken::LeftOut) => seats[peer].counts.left_out += 1,
                Ok(Taken::Unlisted) => seats[peer].counts.unlisted += 1,
                Err(_) => {}
            }
            if taken == Ok(Taken::New) && node == OWN {
                let is_later = shared.first.is_some_and(|it| it < message.stamp);
                self.elsewhere.fetch_add(is_later.into(), Relaxed);
            }
            taken
        });
        let taken = taken.map_err(invalid)?;
        // What stood in a damaged record of the journal was delivered before.
        let is_old = known.journal.as_ref().is_some_and(|it| it.may_have_had(message.stamp));
        if taken == Taken::New && node != OWN && !is_old {
            (self.deliver)(&author, &message);
        }
        Ok(taken)
    }

    /// Waits until more may be published: until no peer that is waited for is too far behind.
    pub async fn may_publish(&self) {
        while !self.shared.lock().machine.may_publish() {
            self.opened.notified().await;
        }
    }

    /// Signs texts as one batch, journals and publishes them, at some nanoseconds since 1970. After an error nothing is published.
    pub fn publish(&self, now: Time, clock: u64, texts: &[Vec<u8>]) -> io::Result<()> {
        let mut own = self.own.author.lock();
        let next = self.shared.lock().machine.next_own(clock);
        let messages = Signed::batch(&self.identity, next, texts)?;
        if let Some(journal) = &mut own.journal {
            self.note_written(journal.append(&messages))?;
        }
        self.published.fetch_add(messages.len() as u64, Relaxed);
        self.act(now, |shared, now| {
            shared.first.get_or_insert(next.1);
            for it in &messages {
                shared.machine.publish(now, it.prev, it.stamp, it.bytes.clone());
            }
        });
        Ok(())
    }

    /// Notes whether a journal was written.
    fn note_written(&self, written: io::Result<()>) -> io::Result<()> {
        let mut unwritten = self.unwritten.lock();
        match &written {
            Ok(()) if unwritten.take().is_some() => warn!("the journal is written again"),
            Ok(()) => {}
            Err(why) => {
                if unwritten.replace(why.to_string()).is_none() {
                    warn!(%why, "the journal is not written");
                }
            }
        }
        written
    }

    // What an operator sees.

    /// What keeps this relay from its work, if anything does.
    pub fn trouble(&self) -> Option<String> {
        let registry = &self.shared.lock().registry;
        let is_alone = registry.listed().count() > 1 && registry.connections().next().is_none();
        let unwritten = self.unwritten.lock();
        let unwritten = unwritten.as_ref().map(|it| format!("the journal is not written: {it}"));
        unwritten.or(is_alone.then(|| "no peer is connected".into()))
    }

    /// Whether a peer is connected.
    pub fn is_connected(&self) -> bool {
        self.shared.lock().registry.connections().next().is_some()
    }

    /// How many own messages were published.
    pub fn published(&self) -> u64 {
        self.published.load(Relaxed)
    }

    /// How many messages came that have this relay's key, are newer than its first one, and were published elsewhere.
    pub fn elsewhere(&self) -> u64 {
        self.elsewhere.load(Relaxed)
    }

    /// How often [`Intake::timeout`] was called.
    pub fn wakes(&self) -> u64 {
        self.wakes.load(Relaxed)
    }

    /// How many connected peers lack own messages, as far as they have said.
    pub fn lacking(&self) -> usize {
        let Shared { machine, registry, .. } = &*self.shared.lock();
        registry.connections().filter(|it| machine.lacks_own(it.peer.node)).count()
    }

    /// How each node does that is listed.
    pub(crate) fn standings(&self, now: Time) -> Vec<Standing> {
        let (shared, now) = self.at(now);
        let Shared { machine, registry, .. } = &*shared;
        registry.listed().map(|it| standing(machine, registry, it, now)).collect()
    }

    /// Logs what begins and what is over that an operator is to know. Called each second.
    pub fn look(&self, now: Time) {
        let (mut shared, now) = self.at(now);
        let Shared { machine, registry, elsewhere, .. } = &mut *shared;
        let listed: Vec<_> = registry.listed().cloned().collect();
        for peer in listed {
            let is_stalled = machine.is_stalled(now, peer.node);
            registry.seats[peer.node].counts.stalled += u64::from(is_stalled);
            let it = standing(machine, registry, &peer, now);
            let troubles = &mut registry.seats[peer.node].troubles;
            for ((what, count), trouble) in TROUBLES.iter().zip(troubles) {
                let count = count(&it);
                match trouble.note(now, count) {
                    Some(true) => warn!(node = it.name, count, "{what}"),
                    Some(false) => warn!(node = it.name, count, "over: {what}"),
                    None => {}
                }
            }
        }
        let count = self.elsewhere.load(Relaxed);
        if elsewhere.note(now, count) == Some(true) {
            warn!(
                count,
                "messages have this relay's key and are not its own: is it in two places?"
            );
        }
    }
}

fn standing(machine: &Machine, registry: &Registry, peer: &Peer, now: Time) -> Standing {
    let (node, log) = (peer.node, machine.log(peer.node));
    let seat = &registry.seats[node];
    Standing {
        name: peer.config.name.clone(),
        is_peer: node != OWN,
        is_connected: seat.connection.is_some(),
        is_held: log.is_held,
        is_stalled: machine.is_stalled(now, node),
        lost: log.lost,
        left_behind: machine.left_behind(node),
        counts: seat.counts,
    }
}

/// A message as the protocol has it.
fn item(author: usize, message: &Signed) -> Message {
    let (stamp, prev, bytes) = (message.stamp, message.prev, message.bytes.clone());
    Message { author, stamp, prev, bytes }
}

#[cfg(test)]
mod tests {
    use super::*;
    use crate::gossip::SECOND;
    use crate::wire::read_packet;
    use std::sync::mpsc::{Receiver, channel};
    use tokio::runtime::Builder;

    const COST: u64 = 1_000;

    fn peer(identity: &Identity) -> PeerConfig {
        let key = identity.id;
        PeerConfig { name: hex::encode(&key[..2]), key, address: None }
    }

    /// A relay that lists these, and the texts that it delivers.
    fn intake(peers: &[&Identity], journal: Option<PathBuf>) -> (Intake, Receiver<Vec<u8>>) {
        let (sender, delivered) = channel();
        let deliver =
            Box::new(move |_: &Peer, it: &Signed| sender.send(it.text().to_vec()).unwrap());
        let (identity, bounds) = (Identity::generate().unwrap(), Bounds::default());
        let intake = Intake::new(identity, bounds, COST, journal, deliver).unwrap();
        let peers: Vec<_> = peers.iter().map(|it| peer(it)).collect();
        assert_eq!(intake.set_peers(0, &peers).unwrap().len(), peers.len());
        (intake, delivered)
    }

    fn attach(intake: &Intake, peer: &Identity) -> Arc<Connection> {
        intake.attach(0, &peer.id, false, Duration::ZERO).unwrap()
    }

    fn batch(author: &Identity, stamp: u64, texts: &[&str]) -> Vec<Signed> {
        let texts: Vec<_> = texts.iter().map(|it| it.as_bytes().to_vec()).collect();
        Signed::batch(author, (stamp - 1, stamp), &texts).unwrap()
    }

    fn all(delivered: &Receiver<Vec<u8>>) -> Vec<String> {
        delivered.try_iter().map(|it| String::from_utf8(it).unwrap()).collect()
    }

    fn counts(intake: &Intake, peer: &Identity) -> Counts {
        let shared = intake.shared.lock();
        shared.registry.seats[shared.registry.find(&peer.id).unwrap().node].counts
    }

    /// Carries what is due from one to the other. Returns whether anything was.
    fn carry(now: Time, from: (&Intake, &Connection), to: (&Intake, &Connection)) -> bool {
        let mut bytes = Vec::new();
        from.0.fill(now, from.1, usize::MAX, &mut bytes);
        let mut rest = &bytes[..];
        let runtime = Builder::new_current_thread().build().unwrap();
        while let Ok(packet) = runtime.block_on(read_packet(&mut rest)) {
            match packet {
                Packet::Message(it) => drop(to.0.take(now, 0, to.1, Signed::decode(it).unwrap())),
                Packet::Report(author, it) => to.0.hear(now, to.1, &author, it),
                _ => panic!("{packet:?}"),
            }
        }
        !bytes.is_empty()
    }

    #[test]
    fn two_relays_exchange_messages_over_any_transport() {
        let (one, from_other) = intake(&[], None);
        let (other, from_one) = intake(&[&one.identity], None);
        one.set_peers(0, &[peer(&other.identity)]).unwrap();
        let ends = [attach(&one, &other.identity), attach(&other, &one.identity)];
        let (here, there) = ((&one, &*ends[0]), (&other, &*ends[1]));
        let mut now = 0;
        let mut meet = || {
            for _ in 0..100 {
                now += SECOND / 100;
                [here.0, there.0].iter().for_each(|it| it.timeout(now));
                while carry(now, here, there) | carry(now, there, here) {}
            }
            now
        };
        let now = meet();
        one.publish(now, 7, &[b"said".into(), b"and more".into()]).unwrap();
        other.publish(now, 7, &[b"heard".into()]).unwrap();
        meet();
        assert_eq!(all(&from_one), ["said", "and more"]);
        assert_eq!(all(&from_other), ["heard"]);
        assert_eq!((one.published(), one.lacking(), other.lacking()), (2, 0, 0));
        // A relay that ends lets each connection go whose peer has all.
        assert!(!one.is_over(here.1));
        one.end();
        assert!(one.is_over(here.1));
    }

    #[test]
    fn a_message_is_delivered_once_and_its_signature_checked_once_a_batch() {
        let [author, peer] = [(); 2].map(|()| Identity::generate().unwrap());
        let (intake, delivered) = intake(&[&author, &peer], None);
        let of_author = attach(&intake, &author);
        let from_peer = attach(&intake, &peer);
        let level = |now| {
            let node = of_author.peer.node;
            intake.shared.lock().machine.log(node).bucket.level(now)
        };
        let (before, messages) = (level(0), batch(&author, 5, &["a", "b", "c"]));
        for it in &messages {
            let taken = intake.take(0, 0, &of_author, it.clone()).unwrap();
            assert_eq!(taken, Taken::New);
        }
        let sizes: u64 = messages.iter().map(|it| item(0, it).size()).sum();
        assert_eq!(before - level(0), sizes + COST);
        // What comes again costs nobody a check.
        assert_eq!(intake.take(0, 0, &from_peer, messages[1].clone()).unwrap(), Taken::Again);
        assert_eq!(
            (before - level(0), all(&delivered)),
            (sizes + COST, vec!["a".into(), "b".into(), "c".into()])
        );
        assert_eq!(counts(&intake, &author), Counts { delivered: 3, ..Counts::default() });
        assert_eq!(counts(&intake, &peer), Counts { again: 1, ..Counts::default() });
    }

    #[test]
    fn what_is_forged_is_not_delivered_and_its_bringer_is_banned() {
        let author = Identity::generate().unwrap();
        let (intake, delivered) = intake(&[&author], None);
        let connection = attach(&intake, &author);
        let mut bytes = batch(&author, 5, &["said"])[0].bytes.to_vec();
        *bytes.last_mut().unwrap() ^= 1;
        let why =
            intake.take(0, 0, &connection, Signed::decode(bytes.into()).unwrap()).unwrap_err();
        intake.detach(0, &connection, &why);
        assert!(why.kind() == ErrorKind::InvalidData && !intake.admits(0, &author.id));
        assert!(all(&delivered).is_empty() && intake.admits(SECOND, &author.id));
        assert_eq!(counts(&intake, &author).invalid, 1);
    }

    #[test]
    fn what_is_of_no_listed_author_is_counted() {
        let [peer, stranger] = [(); 2].map(|()| Identity::generate().unwrap());
        let (intake, delivered) = intake(&[&peer], None);
        let connection = attach(&intake, &peer);
        let taken = intake.take(0, 0, &connection, batch(&stranger, 5, &["said"])[0].clone());
        assert_eq!(taken.unwrap(), Taken::Unlisted);
        intake.hear(0, &connection, &stranger.id, Report::up_to(0));
        intake.hear(0, &connection, &peer.id, Report::up_to(0));
        assert_eq!(counts(&intake, &peer), Counts { unlisted: 2, ..Counts::default() });
        assert!(all(&delivered).is_empty());
    }

    /// Another relay has the same key, or an old journal was put back.
    #[test]
    fn what_another_publishes_with_the_own_key_is_counted() {
        let peer = Identity::generate().unwrap();
        let (intake, delivered) = intake(&[&peer], None);
        let connection = attach(&intake, &peer);
        let take = |stamp| {
            intake.take(0, 0, &connection, batch(&intake.identity, stamp, &["x"])[0].clone())
        };
        // It shows messages, so it gets room for them.
        intake.hear(0, &connection, &intake.identity.id, Report::up_to(1_000));
        intake.fill(0, &connection, usize::MAX, &mut Vec::new());
        // From before the start.
        assert_eq!((take(5).unwrap(), intake.elsewhere()), (Taken::New, 0));
        intake.publish(0, 100, &[b"said".into()]).unwrap();
        assert_eq!((take(50).unwrap(), intake.elsewhere()), (Taken::New, 0));
        assert_eq!((take(200).unwrap(), intake.elsewhere()), (Taken::New, 1));
        assert!(all(&delivered).is_empty());
    }

    #[test]
    fn what_is_not_journaled_is_neither_delivered_nor_published() {
        let folder = std::env::temp_dir().join(format!("intake-{}", std::process::id()));
        let _ = std::fs::remove_dir_all(&folder);
        std::fs::create_dir_all(&folder).unwrap();
        let author = Identity::generate().unwrap();
        let (intake, delivered) = intake(&[&author], Some(folder.clone()));
        let connection = attach(&intake, &author);
        let message = |it| batch(&author, it, &["x".repeat(50_000).as_str()])[0].clone();
        assert_eq!(intake.trouble(), None);
        // As on a full disk: the place of the next file is taken.
        let fresh = folder.join(hex::encode(author.id)).with_extension("new");
        std::fs::create_dir(&fresh).unwrap();
        let mut stamps = 1..;
        let refused = stamps
            .by_ref()
            .find(|it| intake.take(SECOND * it, 0, &connection, message(*it)).is_err());
        let refused = refused.unwrap();
        assert_eq!(delivered.try_iter().count() as u64, refused - 1);
        assert!(intake.trouble().unwrap().contains(&hex::encode(author.id)));
        std::fs::remove_dir(&fresh).unwrap();
        let now = SECOND * refused;
        assert_eq!(intake.take(now, 0, &connection, message(refused)).unwrap(), Taken::New);
        assert_eq!((delivered.try_iter().count(), intake.trouble()), (1, None));
        std::fs::remove_dir_all(&folder).unwrap();
    }
}
