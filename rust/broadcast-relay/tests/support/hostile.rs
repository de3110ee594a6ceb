//! A listed peer that speaks TLS, and what else it likes.

use super::Key;
use openssl::asn1::Asn1Time;
use openssl::hash::MessageDigest;
use openssl::pkey::{PKey, Private};
use openssl::sha::sha256;
use openssl::sign::Signer;
use openssl::ssl::{Ssl, SslContext, SslMethod, SslStream, SslVerifyMode};
use openssl::x509::{X509, X509NameBuilder};
use std::fs;
use std::io::{ErrorKind, Read, Write};
use std::net::{SocketAddr, TcpStream};
use std::time::{Duration, Instant, SystemTime, UNIX_EPOCH};

/// How long it waits for a handshake, and for a turn of it to read or write.
const HANDSHAKE: Duration = Duration::from_secs(5);
const TURN: Duration = Duration::from_secs(1);

pub struct Hostile {
    context: SslContext,
    key: PKey<Private>,
    pub id: [u8; 32],
}

/// Nanoseconds since 1970.
pub fn now() -> u64 {
    SystemTime::now().duration_since(UNIX_EPOCH).unwrap().as_nanos() as u64
}

pub fn frame(kind: u8, body: &[u8]) -> Vec<u8> {
    [&(body.len() as u32 + 1).to_be_bytes()[..], &[kind], body].concat()
}

/// The kinds and bodies of whole frames.
pub fn frames(bytes: &[u8]) -> impl Iterator<Item = &[u8]> {
    let mut rest = bytes;
    std::iter::from_fn(move || {
        let (len, behind) = rest.split_first_chunk()?;
        let (one, others) = behind.split_at_checked(u32::from_be_bytes(*len) as usize)?;
        rest = others;
        Some(one)
    })
}

/// The first frame of a peer.
pub fn hello() -> Vec<u8> {
    frame(3, &5_u16.to_be_bytes())
}

/// A report: which intervals of an author's stamps a peer has had, since when it can send them, and what room it has.
pub fn report(author: &[u8], runs: &[(u64, u64)], since: u64, room: u64) -> Vec<u8> {
    // It is done with nothing of what was left out, and not held.
    let mut body = [author, &since.to_be_bytes(), &room.to_be_bytes(), &[0; 9]].concat();
    // The floor comes first: an interval that begins at 0 ends there.
    let has_floor = runs.first().is_some_and(|it| it.0 == 0);
    let numbers = runs.iter().flat_map(|it| [it.0, it.1]).skip(has_floor.into());
    let numbers = std::iter::repeat_n(0, (!has_floor).into()).chain(numbers);
    numbers.for_each(|it| body.extend(it.to_be_bytes()));
    frame(2, &body)
}

fn certificate(key: &PKey<Private>, name: &str, issuer: &PKey<Private>, of: &str) -> X509 {
    let named = |it: &str| {
        let mut name = X509NameBuilder::new().unwrap();
        name.append_entry_by_text("CN", it).unwrap();
        name.build()
    };
    let mut builder = X509::builder().unwrap();
    builder.set_version(2).unwrap();
    builder.set_subject_name(&named(name)).unwrap();
    builder.set_issuer_name(&named(of)).unwrap();
    builder.set_not_before(&Asn1Time::days_from_now(0).unwrap()).unwrap();
    builder.set_not_after(&Asn1Time::days_from_now(9).unwrap()).unwrap();
    builder.set_pubkey(key).unwrap();
    builder.sign(issuer, MessageDigest::null()).unwrap();
    builder.build()
}

impl Hostile {
    pub fn new(key: &Key) -> Hostile {
        let key = PKey::private_key_from_pem(&fs::read(&key.file).unwrap()).unwrap();
        let certificate = certificate(&key, "hostile", &key, "hostile");
        Hostile::of(key, &[certificate])
    }

    /// A peer whose certificate another key has issued, whose certificate it sends too.
    pub fn with_chain(key: &Key) -> Hostile {
        let key = PKey::private_key_from_pem(&fs::read(&key.file).unwrap()).unwrap();
        let issuer = PKey::generate_ed25519().unwrap();
        let chain = [
            certificate(&key, "hostile", &issuer, "issuer"),
            certificate(&issuer, "issuer", &issuer, "issuer"),
        ];
        Hostile::of(key, &chain)
    }

    fn of(key: PKey<Private>, chain: &[X509]) -> Hostile {
        let mut context = SslContext::builder(SslMethod::tls()).unwrap();
        context.set_verify(SslVerifyMode::NONE);
        context.set_certificate(&chain[0]).unwrap();
        chain[1..].iter().for_each(|it| context.add_extra_chain_cert(it.clone()).unwrap());
        context.set_private_key(&key).unwrap();
        let id = sha256(&key.raw_public_key().unwrap());
        Hostile { context: context.build(), key, id }
    }

    /// Connects, and says its version.
    pub fn connect(&self, to: SocketAddr) -> Option<SslStream<TcpStream>> {
        let mut stream = self.connect_silently(to)?;
        stream.write_all(&hello()).ok()?;
        Some(stream)
    }

    pub fn connect_silently(&self, to: SocketAddr) -> Option<SslStream<TcpStream>> {
        let stream = TcpStream::connect_timeout(&to, HANDSHAKE).ok()?;
        stream.set_write_timeout(Some(HANDSHAKE)).ok()?;
        stream.set_read_timeout(Some(HANDSHAKE)).ok()?;
        let stream = Ssl::new(&self.context).ok()?.connect(stream).ok()?;
        stream.get_ref().set_write_timeout(Some(TURN)).ok()?;
        stream.get_ref().set_read_timeout(Some(TURN)).ok()?;
        Some(stream)
    }

    fn digest(&self, prev: u64, stamp: u64, text: &[u8]) -> [u8; 32] {
        let public = self.key.raw_public_key().unwrap();
        let (stamp, prev) = (stamp.to_be_bytes(), prev.to_be_bytes());
        sha256(&[b"broadcast-relay message 3", &public[..], &stamp, &prev, text].concat())
    }

    /// The bytes of a message of its own, rightly signed, which covers its stamp alone.
    pub fn message(&self, stamp: u64, text: &[u8]) -> Vec<u8> {
        self.message_after(stamp - 1, stamp, text)
    }

    /// The same for `(prev, stamp]`.
    pub fn message_after(&self, prev: u64, stamp: u64, text: &[u8]) -> Vec<u8> {
        let public = self.key.raw_public_key().unwrap();
        let mut signer = Signer::new_without_digest(&self.key).unwrap();
        let signature = signer.sign_oneshot_to_vec(&self.digest(prev, stamp, text)).unwrap();
        let (stamp, prev) = (stamp.to_be_bytes(), prev.to_be_bytes());
        [&signature, &public[..], &stamp, &prev, &[0, 0], text].concat()
    }

    /// Sends bytes over a connection of its own, and reads until the relay closes it, or for a while. Returns whether the
    /// relay has closed it.
    pub fn send(&self, to: SocketAddr, bytes: &[u8], patience: Duration) -> bool {
        let Some(mut stream) = self.connect(to) else { return true };
        if stream.write_all(bytes).is_err() {
            return true;
        }
        is_closed(&mut stream, patience)
    }
}

/// Reads until the relay closes the connection, or for a while. Returns whether the relay has closed it.
pub fn is_closed(stream: &mut SslStream<TcpStream>, patience: Duration) -> bool {
    let end = Instant::now() + patience;
    while Instant::now() < end {
        match stream.read(&mut [0; 4_096]) {
            Ok(0) => return true,
            Ok(_) => {}
            Err(why) if why.kind() == ErrorKind::WouldBlock => {}
            Err(_) => return true,
        }
    }
    false
}
