//! Accepts and dials connections.

use crate::connection;
use crate::identity::PeerId;
use crate::intake::{Intake, Peer};
use crate::now;
use crate::output::Output;
use crate::strangers::{Strangers, has_hello, network};
use crate::tls::{Stream, Tls};
use rand::Rng;
use std::io;
use std::net::{IpAddr, SocketAddr, ToSocketAddrs};
use std::sync::Arc;
use std::sync::atomic::{AtomicU64, Ordering::Relaxed};
use std::thread;
use std::time::{Duration, Instant};
use tokio::net::{TcpListener, TcpStream};
use tokio::sync::{OwnedSemaphorePermit, Semaphore, oneshot};
use tokio::time::{sleep, timeout};
use tracing::{debug, error, info, warn};

/// The deadline of a handshake, from the connection to the first frame.
const HANDSHAKE: Duration = Duration::from_secs(3);
/// How long a relay rests before it dials again, at first and at most.
const REST: Duration = Duration::from_millis(100);
const MAX_REST: Duration = Duration::from_secs(3);
/// How long it rests if the system refuses a descriptor.
const REFUSED: Duration = Duration::from_millis(20);

pub struct Network {
    pub intake: Arc<Intake>,
    pub tls: Tls,
    pub strangers: Strangers,
    /// How many connections are accepted that have proved no key.
    pub accepted: Arc<Semaphore>,
    pub met: Met,
    pub output: Option<Output>,
    pub log: Output,
}

/// How many connections have proved no key: now; ever; and of these, how many lost a place, and got none.
#[derive(Default)]
pub struct Met {
    pub handshakes: AtomicU64,
    pub strangers: AtomicU64,
    pub pushed_out: AtomicU64,
    pub turned_away: AtomicU64,
}

/// A connection whose peer has proved its key and said its version, and how long its packets take there and back, at most.
type Proved = (Stream, PeerId, Duration);

/// Accepts connections, for ever.
pub async fn accept(network: Arc<Network>, listener: TcpListener) {
    while let Ok(permit) = network.accepted.clone().acquire_owned().await {
        match listener.accept().await {
            Ok((stream, address)) => {
                tokio::spawn(greet(network.clone(), stream, address, permit));
            }
            Err(why) => {
                warn!(%why, "a connection was not accepted");
                sleep(REFUSED).await;
            }
        }
    }
}

async fn greet(at: Arc<Network>, stream: TcpStream, from: SocketAddr, one: OwnedSemaphorePermit) {
    let (met, address) = (&at.met, network(from.ip()));
    let Some(mut place) = at.strangers.enter(address).await else {
        met.turned_away.fetch_add(1, Relaxed);
        return;
    };
    met.pushed_out.fetch_add(place.has_pushed.into(), Relaxed);
    met.handshakes.fetch_add(1, Relaxed);
    let proved = tokio::select! {
        _ = &mut place.taken => Err(io::Error::other("another has taken its place")),
        proved = in_time(prove(&at, stream, address)) => proved,
    };
    met.handshakes.fetch_sub(1, Relaxed);
    drop((place, one));
    match proved {
        Ok(proved) => attend(&at.intake, proved, false).await,
        Err(why) => {
            met.strangers.fetch_add(1, Relaxed);
            debug!(%from, %why, "refused");
        }
    }
}

async fn in_time<T>(work: impl Future<Output = io::Result<T>>) -> io::Result<T> {
    timeout(HANDSHAKE, work).await.map_err(|_| io::Error::other("it took too long"))?
}

async fn prove(at: &Network, stream: TcpStream, address: IpAddr) -> io::Result<Proved> {
    stream.set_nodelay(true)?;
    if !has_hello(&stream).await? {
        return Err(io::Error::other("no handshake"));
    }
    at.strangers.turn(address).await;
    let start = Instant::now();
    let (mut stream, id) = at.tls.accept(stream).await?;
    connection::greet(&mut stream).await?;
    Ok((stream, id, start.elapsed()))
}

async fn attend(intake: &Arc<Intake>, (stream, peer, round_trip): Proved, is_dialed: bool) {
    if let Some(connection) = intake.attach(now(), &peer, is_dialed, round_trip) {
        connection::run(intake.clone(), connection, stream).await;
    }
}

/// Dials a peer that has an address, for as long as it is listed with it.
pub fn start_dialing(network: &Arc<Network>, peer: Arc<Peer>) {
    let network = network.clone();
    tokio::spawn(go_on(move || dial(network.clone(), peer.clone())));
}

/// Starts a task, and again whenever it panics.
async fn go_on<F: Future<Output = ()> + Send + 'static>(mut task: impl FnMut() -> F) {
    while tokio::spawn(task()).await.is_err() {
        error!("a task failed, and goes on");
        sleep(MAX_REST).await;
    }
}

/// Dials a peer whenever it is not connected, until it is removed or moves.
async fn dial(network: Arc<Network>, peer: Arc<Peer>) {
    let (intake, Some(address)) = (&network.intake, &peer.config.address) else { return };
    let (mut rest, mut logged) = (REST, None);
    while let Some(is_free) = intake.is_free(now(), &peer) {
        let start = Instant::now();
        if is_free {
            match connect(&network, &peer, address).await {
                Ok(proved) => {
                    logged = None;
                    attend(intake, proved, true).await;
                }
                Err(why) => {
                    let why = Some(why.to_string());
                    if why != logged {
                        info!(peer = peer.config.name, address, why, "not reached");
                        logged = why;
                    }
                }
            }
        }
        // Not both sides at the same time, and the longer the more often it failed.
        let is_fresh = !is_free || start.elapsed() > MAX_REST;
        rest = if is_fresh { REST } else { MAX_REST.min(rest * 2) };
        let part = rand::thread_rng().gen_range(0.5..1.5);
        sleep(rest.mul_f64(part)).await;
    }
}

/// Looks up the addresses of `HOST:PORT`. It may take long: no deadline ends it, so each peer has one thread at most.
async fn resolve(name: &str) -> io::Result<Vec<SocketAddr>> {
    if let Ok(address) = name.parse() {
        return Ok(vec![address]);
    }
    let name = name.to_owned();
    apart(move || name.to_socket_addrs().map(Iterator::collect)).await?
}

/// Does what may take long in a thread of its own.
pub async fn apart<T: Send + 'static>(work: impl FnOnce() -> T + Send + 'static) -> io::Result<T> {
    let (sender, done) = oneshot::channel();
    thread::Builder::new().spawn(move || sender.send(work()))?;
    done.await.map_err(io::Error::other)
}

async fn connect(network: &Network, peer: &Peer, address: &str) -> io::Result<Proved> {
    let (addresses, id) = (resolve(address).await?, peer.config.key);
    in_time(async {
        let start = Instant::now();
        let stream = TcpStream::connect(&addresses[..]).await?;
        let round_trip = start.elapsed();
        stream.set_nodelay(true)?;
        let mut stream = network.tls.connect(stream, id).await?;
        connection::greet(&mut stream).await.map_err(|why| match why.kind() {
            io::ErrorKind::Unsupported => why,
            // The other side ends the handshake once it has seen the own certificate, which is after this side's part of it.
            _ => {
                let name = &peer.config.name;
                io::Error::other(format!("refused: {name} does not list this relay's key"))
            }
        })?;
        Ok((stream, id, round_trip))
    })
    .await
}

#[cfg(test)]
mod tests {
    use super::*;
    use std::sync::atomic::AtomicU32;
    use std::sync::mpsc;

    #[tokio::test]
    async fn a_name_server_that_does_not_answer_keeps_no_other_peer_away() {
        // It answers once the sender is dropped.
        let (silent, answer) = mpsc::channel::<()>();
        let asked = tokio::spawn(apart(move || answer.recv()));
        let found = resolve("localhost:7").await.unwrap();
        assert!(found.iter().all(|it| it.port() == 7));
        let known = resolve("10.0.0.1:7").await.unwrap();
        assert_eq!(known, ["10.0.0.1:7".parse().unwrap()]);
        assert!(!asked.is_finished());
        drop(silent);
        assert!(asked.await.unwrap().unwrap().is_err());
    }

    #[tokio::test(start_paused = true)]
    async fn a_task_that_panics_goes_on() {
        let starts = Arc::new(AtomicU32::new(0));
        let count = starts.clone();
        go_on(move || {
            let start = count.fetch_add(1, Relaxed);
            async move { assert!(start == 3, "as it must be") }
        })
        .await;
        assert_eq!(starts.load(Relaxed), 4);
    }
}
