//! Alice sends Bob a message. Then Mallory floods Bob, and Alice's message stays.
//!
//! `cargo run --example hello`

use broadcast_node::{Error, Key, Limits, Node, Received, Recipients, Subscribed};
use std::sync::Arc;

fn main() -> Result<(), Error> {
    let [alice, bob, mallory] = [1, 2, 3].map(|it| Key::from([it; 32]));
    let limits = Limits::default().deque_size(10);
    let [mut alices, mut bobs, mut mallorys] = [
        Node::<Arc<[u8]>>::new(alice, limits)?,
        Node::<Arc<[u8]>>::new(bob, limits)?,
        Node::<Arc<[u8]>>::new(mallory, limits)?,
    ];
    bobs.update_primary_peers(&[alice, mallory])?;

    let sent = alices.broadcast(Recipients::All, b"hello")?;
    let (digest, payload) = (sent.digest, sent.payload().clone());
    println!("Alice broadcasts \"hello\", whose digest is {digest}");
    if let Subscribed::Waiting(ticket) = bobs.subscribe(&digest)? {
        println!("Bob does not have it yet: a subscribe waits as {ticket:?}");
    }
    if let Received::Taken(message) = bobs.payload(&alice, payload)? {
        println!("Bob receives it, and replies to {:?}", message.served);
    }

    for number in 0..1_000_u32 {
        let sent = mallorys.broadcast(Recipients::All, &number.to_be_bytes())?;
        let _nobody_waits = bobs.payload(&mallory, sent.payload().clone())?;
    }
    let kept = bobs.list(&mallory)?.len();
    println!("Mallory sends Bob 1,000 messages, of which Bob keeps the newest {kept}");
    let message = bobs.get(&digest).map(String::from_utf8_lossy);
    println!("Bob still has Alice's message: {message:?}");
    Ok(())
}
