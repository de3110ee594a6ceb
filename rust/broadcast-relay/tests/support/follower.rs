//! A peer that takes an author's messages as a relay does, at its own pace.

use super::hostile::{Hostile, report};
use openssl::ssl::SslStream;
use std::io::{self, ErrorKind, Read, Write};
use std::net::{SocketAddr, TcpStream};

pub struct Follower {
    stream: SslStream<TcpStream>,
    author: [u8; 32],
    runs: Vec<(u64, u64)>,
    /// The room that it reports.
    pub room: u64,
    /// The messages that came, and their texts.
    pub messages: Vec<Vec<u8>>,
    pub texts: Vec<String>,
}

impl Follower {
    pub fn new(peer: &Hostile, to: SocketAddr, author: [u8; 32]) -> Follower {
        let stream = peer.connect(to).expect("not connected");
        let (runs, messages, texts) = (Vec::new(), Vec::new(), Vec::new());
        let mut it = Follower { stream, author, runs, room: 1 << 20, messages, texts };
        it.report();
        it
    }

    pub fn report(&mut self) {
        let bytes = report(&self.author, &self.runs, u64::MAX, self.room);
        let _ = self.stream.write_all(&bytes);
    }

    fn read_all(&mut self, bytes: &mut [u8]) -> io::Result<()> {
        let mut at = 0;
        while at < bytes.len() {
            match self.stream.read(&mut bytes[at..]) {
                Ok(0) => return Err(ErrorKind::UnexpectedEof.into()),
                Ok(len) => at += len,
                Err(why) if why.kind() == ErrorKind::WouldBlock && at > 0 => {}
                Err(why) => return Err(why),
            }
        }
        Ok(())
    }

    /// Reads a frame, and reports what it has if that was a message. Returns whether it was one. `WouldBlock` if nothing came for a
    /// second.
    pub fn turn(&mut self) -> io::Result<bool> {
        let mut len = [0; 4];
        self.read_all(&mut len)?;
        let mut bytes = vec![0; u32::from_be_bytes(len) as usize];
        while let Err(why) = self.read_all(&mut bytes) {
            if why.kind() != ErrorKind::WouldBlock {
                return Err(why);
            }
        }
        if bytes[0] != 1 {
            return Ok(false);
        }
        let number = |at: usize| u64::from_be_bytes(*bytes[at..].first_chunk().unwrap());
        let (stamp, prev, depth) = (number(97), number(105), usize::from(bytes[114]));
        match self.runs.last_mut().filter(|it| it.1 == prev) {
            Some(last) => last.1 = stamp,
            None => self.runs.push((prev, stamp)),
        }
        self.texts.push(String::from_utf8_lossy(&bytes[115 + 32 * depth..]).into_owned());
        self.messages.push(bytes.split_off(1));
        self.report();
        Ok(true)
    }
}
