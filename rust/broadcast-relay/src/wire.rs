//! Packets: a length of four bytes, big-endian, a byte that tells the kind, and the body.

use crate::gossip::{Coverage, Report};
use crate::identity::PeerId;
use crate::invalid;
use crate::message::MAX_MESSAGE;
use broadcast_node::Span;
use bytes::{Buf, Bytes};
use std::io;
use tokio::io::{AsyncRead, AsyncReadExt};

/// The version of the protocol, which each side says first.
pub const VERSION: u16 = 5;
/// The most bytes of a kind and a body.
const MAX_PACKET: usize = MAX_MESSAGE + 1;

/// What relays send each other.
#[derive(Clone, Debug, PartialEq, Eq)]
pub enum Packet {
    /// Nothing: the peer is alive.
    Beat,
    /// A signed message, as [`crate::message::Signed`] has it.
    Message(Bytes),
    /// What the peer has of an author.
    Report(PeerId, Report),
    /// The version that the peer speaks. It is the first packet, and the same in all versions.
    Hello(u16),
}

impl Packet {
    /// Appends the packet to what is to be written.
    pub fn encode(&self, out: &mut Vec<u8>) {
        let start = out.len();
        out.extend([0; 4]);
        match self {
            Packet::Beat => out.push(0),
            Packet::Message(bytes) => {
                out.push(1);
                out.extend_from_slice(bytes);
            }
            Packet::Report(author, report) => {
                out.push(2);
                out.extend_from_slice(author);
                out.extend(report.since.to_be_bytes());
                out.extend(report.room.to_be_bytes());
                out.extend(report.done.to_be_bytes());
                out.push(report.is_held.into());
                let spans = report.coverage.spans();
                out.extend(report.coverage.floor().to_be_bytes());
                let ends = spans.iter().flat_map(|it| [it.from, it.to]);
                ends.for_each(|it| out.extend(it.to_be_bytes()));
            }
            Packet::Hello(version) => {
                out.push(3);
                out.extend(version.to_be_bytes());
            }
        }
        let len = (out.len() - start - 4) as u32;
        out[start..start + 4].copy_from_slice(&len.to_be_bytes());
    }

    fn decode(mut bytes: Bytes) -> Option<Packet> {
        let kind = *bytes.first()?;
        let body = bytes.split_off(1);
        match kind {
            0 if body.is_empty() => Some(Packet::Beat),
            1 => Some(Packet::Message(body)),
            2 => report(body),
            3 => body.first_chunk().map(|it| Packet::Hello(u16::from_be_bytes(*it))),
            _ => None,
        }
    }
}

fn report(mut body: Bytes) -> Option<Packet> {
    if body.len() < 32 + 8 + 8 + 8 + 1 {
        return None;
    }
    let mut author = [0; 32];
    body.copy_to_slice(&mut author);
    let [since, room, done] = [(); 3].map(|()| body.get_u64());
    let is_held = body.get_u8();
    let coverage = coverage(&body)?;
    let report = Report { coverage, since, room, done, is_held: is_held == 1 };
    (is_held < 2).then_some(Packet::Report(author, report))
}

/// Reads a floor, and the ends of each interval above it. The verified library decides whether they are a coverage.
fn coverage(bytes: &[u8]) -> Option<Coverage> {
    let (floor, rest) = bytes.split_first_chunk()?;
    let (pairs, left) = rest.as_chunks::<16>();
    let end = |it: &[u8]| u64::from_be_bytes(*it.first_chunk().unwrap_or(&[0; 8]));
    let spans = pairs.iter().map(|it| Span { from: end(it), to: end(&it[8..]) }).collect();
    let read = Coverage::reported(u64::from_be_bytes(*floor), spans).ok().flatten();
    read.filter(|_| left.is_empty())
}

/// Reads a packet. What is none is [`io::ErrorKind::InvalidData`].
pub async fn read_packet(from: &mut (impl AsyncRead + Unpin)) -> io::Result<Packet> {
    let wrong = || invalid("what is no packet");
    let len = from.read_u32().await? as usize;
    if len == 0 || len > MAX_PACKET {
        return Err(wrong());
    }
    let mut bytes = vec![0; len];
    from.read_exact(&mut bytes).await?;
    Packet::decode(bytes.into()).ok_or_else(wrong)
}

#[cfg(test)]
mod tests {
    use super::*;
    use crate::message::Signed;
    use rand::{Rng, SeedableRng, rngs::StdRng};

    fn bytes_of(packet: &Packet) -> Vec<u8> {
        let mut bytes = Vec::new();
        packet.encode(&mut bytes);
        bytes
    }

    #[tokio::test]
    async fn a_packet_is_read_back() {
        let spans = (5..=67).map(|it| Span { from: 2 * it, to: 2 * it + 1 }).collect();
        let coverage = Coverage::reported(5, spans).unwrap().unwrap();
        let report = |coverage, is_held| {
            Packet::Report([1; 32], Report { coverage, since: 7, room: 9, done: 8, is_held })
        };
        for packet in [
            Packet::Beat,
            Packet::Message(vec![9; MAX_MESSAGE].into()),
            report(coverage, true),
            report(Coverage::new(0).unwrap(), false),
            Packet::Hello(VERSION),
        ] {
            let bytes = bytes_of(&packet);
            assert_eq!(read_packet(&mut bytes.as_ref()).await.unwrap(), packet);
            let cut = read_packet(&mut &bytes[..bytes.len() - 1]).await.unwrap_err();
            assert_eq!(cut.kind(), io::ErrorKind::UnexpectedEof);
        }
    }

    #[tokio::test]
    async fn what_is_no_packet_is_invalid() {
        let report = Packet::Report([1; 32], Report::up_to(5));
        let mut many = bytes_of(&report);
        (5..=68_u64)
            .for_each(|it| many.extend([2 * it, 2 * it + 1].map(u64::to_be_bytes).concat()));
        let len = (many.len() - 4) as u32;
        many[..4].copy_from_slice(&len.to_be_bytes());
        for bytes in
            [&[0, 0, 0, 0][..], &[0, 0, 0, 1, 7], &[0, 0, 0, 2, 2, 0], &[255, 0, 0, 0], &many]
        {
            let why = read_packet(&mut &*bytes).await.unwrap_err();
            assert_eq!(why.kind(), io::ErrorKind::InvalidData);
        }
    }

    #[test]
    fn no_bytes_make_a_reader_panic() {
        let mut random = StdRng::seed_from_u64(1);
        for _ in 0..100_000 {
            let mut bytes = vec![0; random.gen_range(0..400)];
            random.fill(&mut bytes[..]);
            if let Some(kind) = bytes.first_mut() {
                *kind %= 5;
            }
            let bytes = Bytes::from(bytes);
            if let Some(packet) = Packet::decode(bytes.clone())
                && !matches!(packet, Packet::Hello(_))
            {
                assert_eq!(bytes_of(&packet)[4..], bytes);
            }
            if let Ok(message) = Signed::decode(bytes) {
                assert!(!message.is_signed() && message.text().len() <= 400);
            }
        }
    }
}
