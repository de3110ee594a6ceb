//! A connection of a peer: what reads and what writes. What is written, and what becomes of what is read, the protocol decides.

use crate::gossip::{Bucket, Taken};
use crate::intake::{Connection, Intake};
use crate::message::Signed;
use crate::tls::Stream;
use crate::wire::{Packet, VERSION, read_packet};
use crate::{clock, invalid, now};
use std::future::pending;
use std::io::{self, ErrorKind};
use std::sync::Arc;
use std::time::Duration;
use tokio::io::{AsyncRead, AsyncWrite, AsyncWriteExt, BufReader, split};
use tokio::time::{Instant, sleep, timeout, timeout_at};

/// How often an idle connection carries a beat, and how long it may be silent or refuse to take bytes.
const BEAT: Duration = Duration::from_secs(1);
const SILENCE: Duration = Duration::from_secs(10);
/// How many packets are read of a peer in a second. A report counts as many, since it makes the protocol decide anew, and so do so many
/// bytes of a message that was not new.
const PACKETS_PER_SECOND: u64 = 100_000;
const REPORT: u64 = 5;
const USELESS: u64 = 128;
/// How much is written at once.
const BATCH: usize = 64 << 10;

/// Exchanges the first packets, which say the version.
pub async fn greet(stream: &mut Stream) -> io::Result<()> {
    let mut hello = Vec::new();
    Packet::Hello(VERSION).encode(&mut hello);
    stream.write_all(&hello).await?;
    match read_packet(stream).await? {
        Packet::Hello(VERSION) => Ok(()),
        Packet::Hello(version) => {
            let why = format!("its protocol has version {version}, and this relay's {VERSION}");
            Err(io::Error::new(ErrorKind::Unsupported, why))
        }
        _ => Err(io::Error::other("it did not say its version")),
    }
}

/// Serves a connection until it ends, or another takes its place.
pub async fn run(intake: Arc<Intake>, connection: Arc<Connection>, stream: Stream) {
    let (reader, writer) = split(stream);
    let result = tokio::select! {
        () = connection.ended.notified() => Err(io::Error::other("replaced or removed")),
        result = write(&intake, &connection, writer) => result,
        result = read(&intake, &connection, reader) => result,
    };
    let why = result.err().unwrap_or_else(|| ErrorKind::BrokenPipe.into());
    intake.detach(now(), &connection, &why);
}

/// Writes what is due, and beats. Once the peer has all own messages and this relay ends, it lets the peer read all and close: a
/// connection that is closed while bytes of the peer are unread is reset, and what is on its way is lost.
async fn write(
    intake: &Intake,
    connection: &Connection,
    mut to: impl AsyncWrite + Unpin,
) -> io::Result<()> {
    let (mut bytes, mut beat) = (Vec::new(), Instant::now() + BEAT);
    loop {
        bytes.clear();
        intake.fill(now(), connection, BATCH, &mut bytes);
        if bytes.is_empty() {
            if intake.is_over(connection) {
                timeout(SILENCE, to.shutdown()).await??;
                return pending().await;
            }
            if timeout_at(beat, connection.due.notified()).await.is_ok() {
                continue;
            }
            Packet::Beat.encode(&mut bytes);
        }
        timeout(SILENCE, to.write_all(&bytes)).await??;
        beat = Instant::now() + BEAT;
    }
}

async fn read(
    intake: &Intake,
    connection: &Connection,
    from: impl AsyncRead + Unpin,
) -> io::Result<()> {
    let mut from = BufReader::with_capacity(1 << 16, from);
    let mut packets = Bucket::new(PACKETS_PER_SECOND, PACKETS_PER_SECOND / 8);
    loop {
        let packet = timeout(SILENCE, read_packet(&mut from)).await??;
        connection.hear(now());
        let cost = match packet {
            Packet::Beat => 1,
            Packet::Report(author, report) => {
                intake.hear(now(), connection, &author, report);
                REPORT
            }
            Packet::Message(bytes) => {
                let len = bytes.len() as u64;
                let message = Signed::decode(bytes).map_err(invalid)?;
                let is_new = intake.take(now(), clock(), connection, message)? == Taken::New;
                1 + if is_new { 0 } else { len / USELESS }
            }
            Packet::Hello(_) => return Err(invalid("a second first packet")),
        };
        let now = now();
        packets.charge(now, cost);
        let rest = Duration::from_micros(packets.when(now, 1) - now);
        if !rest.is_zero() {
            sleep(rest.min(SILENCE / 2)).await;
        }
    }
}
