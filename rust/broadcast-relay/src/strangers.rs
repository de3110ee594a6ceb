//! What connections take that have proved no key.
//!
//! They have few places, and each has one deadline in all. A newcomer always gets one: the oldest of its own address leaves if that
//! has its share, else the oldest of the address that has most. An address gets its share at once, and then a place each
//! 8 ms: so a place lasts as long as a share times that, also if strangers come back whenever they are pushed out.
//!
//! Their handshakes are computed at a pace for all addresses together, so that they take a bounded part of a processor, and of each
//! address in turn, so that no address takes the pace of another.

use crate::gossip::{Bucket, SECOND, Time};
use crate::lock::Mutex;
use crate::now;
use std::cmp::Reverse;
use std::collections::{HashMap, VecDeque};
use std::net::{IpAddr, Ipv6Addr};
use std::sync::Arc;
use std::time::Duration;
use tokio::net::TcpStream;
use tokio::sync::{self, oneshot};
use tokio::time::{Instant, sleep};

/// How often an address gets a place beyond its share, and how many of its connections wait for one.
const PLACE: Time = 8_000;
const LINE: u64 = 64;
/// How many addresses are remembered before those are forgotten that have their whole share.
const ADDRESSES: usize = 4_096;
/// One handshake takes up to 1.7 ms of a processor: at this pace all together take an eighth of one.
const PACE: Duration = Duration::from_millis(12);
/// How many are computed at once after a rest, as when all peers of a relay come back.
const BURST: u32 = 32;
/// A first record of a handshake has a head of five bytes, and no more behind it than this: one whole message, whose head has a kind
/// and a length.
const HEAD: usize = 5;
const MAX_HELLO: usize = 4_096;

pub struct Strangers {
    most: usize,
    most_of_address: usize,
    state: Mutex<State>,
    /// When all handshakes that had their turn will have had their time. Whoever locks it has its turn next.
    computed: sync::Mutex<Instant>,
}

#[derive(Default)]
struct State {
    /// The places of each address, oldest first: since when, and what is dropped when another takes the place.
    places: HashMap<IpAddr, VecDeque<(Instant, oneshot::Sender<()>)>>,
    /// How many places each address has left.
    shares: HashMap<IpAddr, Bucket>,
    waiting: usize,
    /// Whoever locks it waits for the address's turn.
    turns: HashMap<IpAddr, Arc<sync::Mutex<()>>>,
}

/// A place that was given, until it is dropped.
pub struct Place {
    /// Resolves when another connection has taken the place.
    pub taken: oneshot::Receiver<()>,
    pub has_pushed: bool,
}

/// The part of an address that one attacker has: of IPv6 the first half.
pub fn network(address: IpAddr) -> IpAddr {
    match address.to_canonical() {
        IpAddr::V6(it) => IpAddr::V6(Ipv6Addr::from_bits(it.to_bits() >> 64 << 64)),
        it => it,
    }
}

impl Strangers {
    pub fn new(most: usize, most_of_address: usize) -> Strangers {
        let computed = sync::Mutex::new(Instant::now());
        Strangers { most, most_of_address, state: Mutex::default(), computed }
    }

    /// Returns how long a connection waits for its place, or none if it is turned away.
    fn line_up(&self, address: IpAddr, now: Time) -> Option<Duration> {
        let (state, share) = (&mut *self.state.lock(), self.most_of_address as u64);
        if state.shares.len() > ADDRESSES {
            state.shares.retain(|_, it| it.level(now) < share);
        }
        let left =
            state.shares.entry(address).or_insert_with(|| Bucket::new(SECOND / PLACE, share));
        let wait = left.when(now, 1) - now;
        if wait > PLACE * LINE || (wait > 0 && state.waiting >= self.most) {
            return None;
        }
        left.charge(now, 1);
        state.waiting += usize::from(wait > 0);
        Some(Duration::from_micros(wait))
    }

    /// Gives a place to a connection, which may have to wait for it. Returns none if it is turned away.
    pub async fn enter(&self, address: IpAddr) -> Option<Place> {
        let wait = self.line_up(address, now())?;
        if !wait.is_zero() {
            sleep(wait).await;
            self.state.lock().waiting -= 1;
        }
        Some(self.take(address))
    }

    fn take(&self, address: IpAddr) -> Place {
        let places = &mut self.state.lock().places;
        places.retain(|_, it| {
            it.retain(|(_, place)| !place.is_closed());
            !it.is_empty()
        });
        let has_share = places.get(&address).is_some_and(|it| it.len() >= self.most_of_address);
        let is_full = places.values().map(VecDeque::len).sum::<usize>() >= self.most;
        let largest = places.iter().max_by_key(|(_, it)| (it.len(), Reverse(it[0].0)));
        let largest = largest.filter(|_| is_full).map(|it| *it.0);
        let leaves = if has_share { Some(address) } else { largest };
        let place = leaves.and_then(|it| places.get_mut(&it)?.pop_front());
        let (sender, taken) = oneshot::channel();
        places.entry(address).or_default().push_back((Instant::now(), sender));
        Place { taken, has_pushed: place.is_some() }
    }

    /// Waits for the turn of a handshake. Of each address one is in the line of all.
    pub async fn turn(&self, address: IpAddr) {
        let own = {
            let turns = &mut self.state.lock().turns;
            turns.retain(|_, it| Arc::strong_count(it) > 1);
            turns.entry(address).or_default().clone()
        };
        let _first = own.lock().await;
        let mut computed = self.computed.lock().await;
        sleep(computed.saturating_duration_since(Instant::now() + PACE * BURST)).await;
        *computed = Instant::now().max(*computed) + PACE;
    }
}

/// Waits until a whole first record has come. Returns whether it may begin a handshake: who trickles computes nothing.
pub async fn has_hello(stream: &TcpStream) -> std::io::Result<bool> {
    let mut bytes = [0; HEAD + MAX_HELLO];
    let mut rest = Duration::from_millis(2);
    loop {
        let len = stream.peek(&mut bytes).await?;
        if let [kind, _, _, high, low, _, long, mid, end, ..] = bytes[..len] {
            let record = usize::from(u16::from_be_bytes([high, low]));
            // Of a longer message TLS would keep room for all.
            let is_whole = long == 0 && usize::from(u16::from_be_bytes([mid, end])) + 4 == record;
            if kind != 22 || record > MAX_HELLO || !is_whole {
                return Ok(false);
            }
            if len >= HEAD + record {
                return Ok(true);
            }
        } else if len == 0 {
            return Ok(false);
        }
        sleep(rest).await;
        rest = (rest * 2).min(Duration::from_millis(100));
    }
}

#[cfg(test)]
mod tests {
    use super::*;
    use tokio::time::timeout;

    fn address(number: u8) -> IpAddr {
        IpAddr::from([10, 0, 0, number])
    }

    fn is_pushed(given: &mut Place) -> bool {
        given.taken.try_recv() == Err(oneshot::error::TryRecvError::Closed)
    }

    #[test]
    fn an_address_beyond_its_share_pushes_out_its_own_oldest() {
        let places = Strangers::new(100, 3);
        let mut other = places.take(address(2));
        let mut given: Vec<Place> = (0..5).map(|_| places.take(address(1))).collect();
        let pushed: Vec<bool> = given.iter_mut().map(is_pushed).collect();
        assert_eq!(pushed, [true, true, false, false, false]);
        assert!(!is_pushed(&mut other));
    }

    #[test]
    fn when_all_are_taken_the_address_that_has_most_loses_one() {
        let places = Strangers::new(6, 4);
        let mut many: Vec<Place> = (0..4).map(|_| places.take(address(1))).collect();
        let mut few: Vec<Place> = (0..2).map(|_| places.take(address(2))).collect();
        let mut newcomer = places.take(address(3));
        assert!(newcomer.has_pushed && is_pushed(&mut many[0]));
        let mut second = places.take(address(4));
        assert!(second.has_pushed && is_pushed(&mut many[1]));
        assert!(!few.iter_mut().chain([&mut newcomer, &mut second]).any(is_pushed));
        drop(newcomer);
        assert!(!places.take(address(5)).has_pushed);
    }

    #[test]
    fn an_address_that_comes_back_at_once_waits_and_no_other_does() {
        let (places, now) = (Strangers::new(1_000, 10), 5 * SECOND);
        let waits = |times| Some(Duration::from_micros(PLACE * times));
        let first: Vec<_> = (0..10).map(|_| places.line_up(address(1), now)).collect();
        assert!(first.iter().all(|it| *it == waits(0)));
        assert_eq!(places.line_up(address(1), now), waits(1));
        assert_eq!(places.line_up(address(1), now), waits(2));
        assert_eq!(places.line_up(address(2), now), waits(0));
        let all = (0..1_000).filter(|_| places.line_up(address(1), now).is_some()).count();
        assert_eq!(all, LINE as usize - 2);
        assert_eq!(places.line_up(address(1), now + PLACE * 200), waits(0));
    }

    #[test]
    fn an_attacker_has_half_an_ipv6_address() {
        let of = |it: &str| network(it.parse().unwrap());
        assert_eq!(of("2001:db8::1"), of("2001:db8::ffff:0:0:1"));
        assert_ne!(of("2001:db8::1"), of("2001:db8:0:1::1"));
        assert_eq!(of("::ffff:10.0.0.1"), address(1));
    }

    #[tokio::test]
    async fn a_handshake_begins_with_a_whole_short_record() {
        use tokio::io::AsyncWriteExt;
        let listener = tokio::net::TcpListener::bind("127.0.0.1:0").await.unwrap();
        let long = 131_000;
        for (kind, record, message, is_one) in [
            (22, 304, 300, true),
            (22, MAX_HELLO, MAX_HELLO - 4, true),
            (22, MAX_HELLO + 1, MAX_HELLO - 3, false),
            (23, 304, 300, false),
            (22, 304, long, false),
        ] {
            let mut peer = TcpStream::connect(listener.local_addr().unwrap()).await.unwrap();
            let (stream, _) = listener.accept().await.unwrap();
            let [.., high, mid, low] = (message as u32).to_be_bytes();
            let head = [kind, 3, 1, (record >> 8) as u8, record as u8, 1, high, mid, low];
            peer.write_all(&head).await.unwrap();
            // Of a record that may be one all has to come.
            if is_one {
                peer.write_all(&vec![1; record - 4]).await.unwrap();
            }
            // Who waits for more has not refused it.
            let begins = timeout(Duration::from_secs(60), has_hello(&stream)).await;
            assert_eq!(begins.unwrap().unwrap(), is_one, "{kind} {record} {message}");
        }
    }

    #[tokio::test(start_paused = true)]
    async fn turns_have_a_pace_and_each_address_its_own() {
        let handshakes = Arc::new(Strangers::new(1, 1));
        let granted = Arc::new(Mutex::new(Vec::new()));
        let come = |last: u8| {
            let (handshakes, granted) = (handshakes.clone(), granted.clone());
            tokio::spawn(async move {
                handshakes.turn(IpAddr::from([10, 0, 0, last])).await;
                granted.lock().push(last);
            });
        };
        (0..200).for_each(|_| come(1));
        sleep(PACE * 10).await;
        let before = granted.lock().len();
        assert!((40..=44).contains(&before), "{before}");
        come(2);
        sleep(PACE * 3).await;
        assert!(granted.lock().contains(&2), "an address waits for another");
        sleep(PACE * 200).await;
        assert_eq!(granted.lock().len(), 201);
    }
}
