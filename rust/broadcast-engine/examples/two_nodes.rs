//! Two engines over channels: what one broadcasts, somebody awaits at the other.
//!
//! `cargo run -p broadcast-engine --example two_nodes`

use broadcast_engine::{
    Config, Digested, Engine, Error, Fixed, Mailbox, Message, Recipients, Sender,
};
use bytes::Bytes;
use sha2::{Digest, Sha256};
use tokio::sync::mpsc;

type Key = [u8; 32];
type Packet = (Key, Bytes);

const NODES: [Key; 2] = [[1; 32], [2; 32]];

struct Text(String);

/// What a message is: its bytes, and its digest.
impl Message for Text {
    type Digest = [u8; 32];
    type Config = usize; // the most bytes of a text
    type Error = &'static str;

    fn encode(&self) -> Bytes {
        self.0.clone().into()
    }

    fn decode(bytes: Bytes, max: &usize) -> Result<Text, &'static str> {
        if bytes.len() > *max {
            return Err("too long");
        }
        String::from_utf8(bytes.to_vec()).map(Text).map_err(|_| "not UTF-8")
    }

    fn digest(&self) -> [u8; 32] {
        Sha256::digest(&self.0).into()
    }
}

/// The way to the other node. A channel of packets is the way back.
struct ToOther(Key, mpsc::Sender<Packet>);

impl Sender for ToOther {
    type PublicKey = Key;

    fn send(&mut self, _: Recipients<Key>, payload: Bytes, _priority: bool) {
        let _ = self.1.try_send((self.0, payload)); // a full network loses it
    }
}

fn start(
    own: Key,
    to: mpsc::Sender<Packet>,
    from: mpsc::Receiver<Packet>,
) -> Result<Mailbox<Key, Text>, Error> {
    let config = Config::new(own, Fixed::new(NODES), 10_000)
        .deque_size(100) // messages for each peer
        .byte_budget(1 << 20); // bytes for each peer
    let (engine, mailbox) = Engine::new(config)?;
    engine.start((ToOther(own, to), from));
    Ok(mailbox)
}

#[tokio::main(flavor = "current_thread")]
async fn main() -> Result<(), Box<dyn std::error::Error>> {
    let ((to_one, from_other), (to_other, from_one)) = (mpsc::channel(100), mpsc::channel(100));
    let one = start(NODES[0], to_other, from_other)?;
    let other = start(NODES[1], to_one, from_one)?;

    let message = Digested::new(Text("hello".into()));
    let awaited = other.subscribe(message.digest());
    assert!(one.broadcast(Recipients::All, message.clone()).accepted());
    println!("the other node got {:?}", awaited.await?.0);
    println!("and has it still: {}", other.get(message.digest()).await.is_some());
    Ok(())
}
