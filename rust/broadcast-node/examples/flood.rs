//! A message of Alice, then a flood of Mallory: the program of the repository's README.
//!
//! `cargo run --example flood`

use broadcast_node::{Cache, Digest, Error, Key, Subscribed};

fn main() -> Result<(), Error> {
    let [own, alice, mallory] = [1, 2, 3].map(|n| Key::from([n; 32]));
    let mut cache = Cache::new(own, 10, 1_000_000)?; // each list: 10 messages, 1 MB
    cache.update_primary_peers(&[own, alice, mallory])?; // whose messages are kept

    let digest = Digest::sha256(b"hello");
    if let Subscribed::Waiting(ticket) = cache.subscribe(&digest)? {
        println!("not here yet: {ticket:?} waits");
    }
    let taken = cache.take(&alice, &digest, 5, "hello".to_string())?; // 5 bytes, from Alice
    println!("here: reply to {:?} with {:?}", taken.served, *taken.message);
    drop(taken); // it borrows the cache

    for number in 0..1_000 {
        let spam = number.to_string();
        drop(cache.take(&mallory, &Digest::sha256(spam.as_bytes()), spam.len(), spam)?);
    }
    println!("after 1,000 messages of Mallory: {:?}", cache.get(&digest));
    println!("cached: 1 of Alice and {} of Mallory", cache.list(&mallory)?.len());
    Ok(())
}
