//! The configuration, a TOML file.

use crate::gossip::{Bounds, CHARGE, SECOND};
use crate::identity::{Identity, PeerId};
use crate::message::MAX_MESSAGE;
use crate::output::{Form, MAX_WAITING};
use crate::{invalid, of};
use serde::{Deserialize, Deserializer, de::Error};
use std::fs;
use std::io;
use std::net::SocketAddr;
use std::path::{Path, PathBuf};

#[derive(Clone, Debug, Deserialize, PartialEq)]
#[serde(deny_unknown_fields)]
pub struct Config {
    /// The file with the own key, of `keygen`.
    pub key: PathBuf,
    /// Where this relay listens.
    #[serde(deserialize_with = "address")]
    pub listen: SocketAddr,
    /// Where others reach it, if that is another address: `broadcast-relay entry` prints it.
    pub advertise: Option<String>,
    /// Where it serves `/metrics` and `/healthz`.
    #[serde(default, deserialize_with = "address")]
    pub metrics: Option<SocketAddr>,
    /// The folder of the journal.
    pub journal: Option<PathBuf>,
    /// Whether each line of the standard input is broadcast.
    #[serde(default)]
    pub input: bool,
    /// How messages of peers are printed to the standard output, if they are.
    #[serde(default = "shown", deserialize_with = "form")]
    pub output: Option<Form>,
    #[serde(default)]
    pub limits: Limits,
    #[serde(default, rename = "peer")]
    pub peers: Vec<PeerConfig>,
}

/// A peer, as a configuration names it.
#[derive(Clone, Debug, Deserialize, PartialEq)]
#[serde(deny_unknown_fields)]
pub struct PeerConfig {
    /// A word of its own in the output.
    pub name: String,
    /// The SHA-256 of its public key, in a file as 64 hexadecimal digits.
    #[serde(deserialize_with = "key")]
    pub key: PeerId,
    /// Where it listens, as a host and a port. Without it the peer has to dial.
    pub address: Option<String>,
}

#[derive(Clone, Debug, Deserialize, PartialEq)]
#[serde(deny_unknown_fields, default)]
pub struct Limits {
    /// The most bytes of messages that are kept of each author, each with 128 bytes of overhead.
    pub bytes_per_peer: u64,
    /// How fast the messages of an author are taken.
    pub author_messages_per_second: u64,
    pub author_bytes_per_second: u64,
    pub author_signatures_per_second: u64,
    /// For how long an author waits for a peer that stands still.
    pub patience_seconds: u64,
    /// The most connections that have proved no key, in all and of one address.
    pub handshakes: u64,
    pub handshakes_per_address: u64,
}

impl Default for Limits {
    fn default() -> Limits {
        Limits {
            bytes_per_peer: 4 << 20,
            author_messages_per_second: 10_000,
            author_bytes_per_second: 8 << 20,
            author_signatures_per_second: 1_000,
            patience_seconds: 6,
            handshakes: 512,
            handshakes_per_address: 64,
        }
    }
}

impl Limits {
    /// What the check of a signature is charged to its author, in bytes.
    pub fn signature_cost(&self) -> u64 {
        self.author_bytes_per_second / self.author_signatures_per_second
    }

    /// The bounds of the protocol that follow from these limits.
    pub fn bounds(&self) -> Bounds {
        let (list, rate) = (self.bytes_per_peer, self.author_bytes_per_second);
        let burst = (rate / 8).max(512 << 10);
        Bounds {
            list,
            behind: list / 2,
            room: (256 << 10).min(burst / 8).min(list / 16),
            largest: MAX_MESSAGE as u64 + CHARGE,
            rate,
            burst,
            least: rate / self.author_messages_per_second,
            patience: self.patience_seconds * SECOND,
            ..Bounds::default()
        }
    }
}

/// The most of each limit, so that bounds on memory are numbers.
const MOST: u64 = 1 << 40;

fn shown() -> Option<Form> {
    Some(Form::Shown)
}

fn form<'de, D: Deserializer<'de>>(from: D) -> Result<Option<Form>, D::Error> {
    #[derive(Deserialize)]
    #[serde(untagged)]
    enum Value {
        Whether(bool),
        How(String),
    }
    match Value::deserialize(from) {
        Ok(Value::Whether(is_printed)) => Ok(is_printed.then_some(Form::Shown)),
        Ok(Value::How(how)) if how == "raw" => Ok(Some(Form::Raw)),
        _ => Err(D::Error::custom("output is true, false or \"raw\"")),
    }
}

fn address<'de, D: Deserializer<'de>, A: From<SocketAddr>>(from: D) -> Result<A, D::Error> {
    let parsed = String::deserialize(from)?.parse::<SocketAddr>();
    let why = "it has to be an IP address and a port, as 127.0.0.1:7001 is";
    parsed.map(A::from).map_err(|_| D::Error::custom(why))
}

fn key<'de, D: Deserializer<'de>>(from: D) -> Result<PeerId, D::Error> {
    let mut key = [0; 32];
    hex::decode_to_slice(String::deserialize(from)?, &mut key)
        .map_err(|_| D::Error::custom("a key has 64 hexadecimal digits"))?;
    Ok(key)
}

impl Config {
    /// Reads the file and checks it. Paths in it are relative to its folder.
    pub fn load(file: &Path) -> io::Result<Config> {
        let read = || {
            let mut config = Config::parse(&fs::read_to_string(file)?).map_err(invalid)?;
            let folder = file.parent().unwrap_or(Path::new(""));
            config.key = folder.join(&config.key);
            config.journal = config.journal.map(|it| folder.join(it));
            Ok(config)
        };
        read().map_err(of(file))
    }

    /// Reads a text and checks it.
    pub fn parse(text: &str) -> Result<Config, String> {
        let config: Config = toml::from_str(text).map_err(|it| it.to_string())?;
        config.check().map(|()| config)
    }

    fn check(&self) -> Result<(), String> {
        for (place, peer) in self.peers.iter().enumerate() {
            let before = &self.peers[..place];
            check_name(&peer.name)?;
            if before.iter().any(|it| it.name == peer.name) {
                return Err(format!("two peers have the name {}", peer.name));
            }
            if let Some(other) = before.iter().find(|it| it.key == peer.key) {
                return Err(format!("the peers {} and {} have one key", other.name, peer.name));
            }
            if let Some(address) = peer.address.iter().find(|it| !is_address(it)) {
                let why = "it has to be HOST:PORT";
                return Err(format!("the address of {} is {address:?}: {why}", peer.name));
            }
        }
        if self.metrics == Some(self.listen) && self.listen.port() != 0 {
            return Err("metrics and listen are one address".into());
        }
        let limits = &self.limits;
        let needed = [
            ("bytes_per_peer", limits.bytes_per_peer, 1 << 20..=MOST),
            ("author_messages_per_second", limits.author_messages_per_second, 1..=MOST),
            ("author_bytes_per_second", limits.author_bytes_per_second, MAX_MESSAGE as u64..=MOST),
            ("author_signatures_per_second", limits.author_signatures_per_second, 1..=MOST),
            ("patience_seconds", limits.patience_seconds, 1..=24 * 3_600),
            ("handshakes_per_address", limits.handshakes_per_address, 1..=MOST),
            ("handshakes", limits.handshakes, limits.handshakes_per_address..=MOST),
        ];
        match needed.iter().find(|(_, value, range)| !range.contains(value)) {
            Some((name, value, range)) => {
                let (least, most) = (range.start(), range.end());
                Err(format!("{name} is {value}, and has to be at least {least}, at most {most}"))
            }
            None => Ok(()),
        }
    }

    /// A bound on the resident memory, in bytes, for as long as no peer is added.
    ///
    /// Of each author there are a list, what log and journal know of each message, and lines that wait for the output; of each peer
    /// what is read and written at once, what TLS keeps, and what is known of it for each author. A start reads one journal at a time.
    pub fn memory_bound(&self) -> u64 {
        let (peers, limits) = (self.peers.len() as u64, &self.limits);
        let author = 3 * limits.bytes_per_peer + 2 * MAX_WAITING as u64;
        // A report, and what is known of each message that is in flight, or that came since the last report.
        let view = 4_096 + 24 * (limits.bounds().room + limits.bytes_per_peer / 8) / CHARGE;
        let peer = (1 << 20) + (peers + 1) * view;
        let handshakes = limits.handshakes * (96 << 10);
        (48 << 20) + (peers + 1) * author + 3 * limits.bytes_per_peer + peers * peer + handshakes
    }

    /// How many descriptors are open at most.
    pub fn descriptors(&self) -> u64 {
        // Handshakes, and connections that wait for one; of each peer a connection, one that replaces it, one that is dialed,
        // and a file.
        64 + 2 * self.limits.handshakes + 4 * self.peers.len() as u64
    }

    /// What other relays write into their configurations to name this one.
    pub fn entry(&self, name: &str) -> io::Result<String> {
        Ok(self.entry_of(name, &Identity::load(&self.key)?))
    }

    /// The same, of a key that need not be in its file yet.
    pub fn entry_of(&self, name: &str, identity: &Identity) -> String {
        let key = hex::encode(identity.id);
        let address = self.advertise.clone().unwrap_or_else(|| self.listen.to_string());
        format!("[[peer]]\nname = \"{name}\"\nkey = \"{key}\"\naddress = \"{address}\"\n")
    }
}

/// Whether a text is `HOST:PORT`.
fn is_address(text: &str) -> bool {
    let (host, port) = text.rsplit_once(':').unwrap_or_default();
    let is_host = |it: &str| !it.is_empty() && !it.contains([':', '/', '[', ' ']);
    let is_port = port.parse::<u16>().is_ok_and(|it| it > 0);
    is_port && (is_host(host) || text.parse::<SocketAddr>().is_ok())
}

/// A name is a word of its own in a line of output and in a configuration.
pub fn check_name(name: &str) -> Result<(), String> {
    let is_word = |it: char| !it.is_whitespace() && !it.is_control() && it != '"' && it != '\\';
    match !name.is_empty() && name != "own" && name.chars().all(is_word) {
        true => Ok(()),
        false => Err(format!("{name:?} is no name: it is empty, `own`, or has spaces or quotes")),
    }
}

#[cfg(test)]
mod tests {
    use super::*;

    #[test]
    fn the_example_has_each_limit_as_it_is_by_default() {
        let text = include_str!("../relay.example.toml");
        let config = Config::parse(text).unwrap();
        assert_eq!(config.limits, Limits::default());
        let limits = format!("{:?}", config.limits);
        let names: Vec<_> = limits.split(' ').filter_map(|it| it.strip_suffix(':')).collect();
        assert!(names.iter().all(|it| text.contains(&format!("\n{it} = "))), "{names:?}");
        assert!(config.output == Some(Form::Shown) && config.peers.len() == 2);
    }

    #[test]
    fn a_wrong_configuration_is_refused_with_a_reason() {
        let good = "key = \"k\"\nlisten = \"[::1]:7001\"\n";
        let peer = |name: &str, key: &str, rest: &str| {
            format!("[[peer]]\nname = \"{name}\"\nkey = \"{}\"\n{rest}\n", key.repeat(64))
        };
        assert_eq!(Config::parse(good).unwrap().limits, Limits::default());
        let config =
            Config::parse(&format!("{good}{}", peer("b", "a", "address = \"h:1\""))).unwrap();
        assert_eq!(config.peers[0].key, [0xaa; 32]);
        for (rest, why) in [
            (peer("b", "a", "") + &peer("c", "a", ""), "the peers b and c have one key"),
            (peer("b", "a", "") + &peer("b", "c", ""), "two peers"),
            (peer("b", "x", ""), "hexadecimal"),
            ("output = \"hex\"\n".into(), "raw"),
            (peer("b c", "a", ""), "no name"),
            (peer("own", "a", ""), "no name"),
            (peer("b", "a", "address = \"h\""), "HOST:PORT"),
            (peer("b", "a", "address = \"h:port\""), "HOST:PORT"),
            (peer("b", "a", "address = \":99999\""), "HOST:PORT"),
            (peer("b", "a", "address = \"tls://h:7001\""), "HOST:PORT"),
            ("metrics = \"[::1]:7001\"\n".into(), "one address"),
            ("metrics = \"localhost:7001\"\n".into(), "IP address"),
            (peer("b", "a", "port = 1"), "unknown field"),
            ("[limits]\nbytes_per_peer = 10".into(), "at least"),
            ("[limits]\nbytes_per_peer = 9000000000000000000".into(), "at most"),
            ("[limits]\nhandshakes = 3".into(), "at least"),
            ("[limits]\npatience_seconds = 100000".into(), "at most"),
            ("[limits]\nhandshake = 3".into(), "unknown field"),
        ] {
            let said = Config::parse(&format!("{good}{rest}")).unwrap_err();
            assert!(said.contains(why), "{said}");
        }
        assert!(Config::parse("listen = \"[::1]:7001\"").unwrap_err().contains("key"));
        assert!(Config::parse("key = \"k\"\nlisten = \"localhost\"").is_err());
    }
}
