//! The memory that a node keeps under an attack, beside what its lists are charged: `cargo bench --bench resident`.
//!
//! All peers but one have lists of small messages, and one sends many large ones.

use broadcast_node::{Error, Key, Limits, Node};
use std::fs::read_to_string;

const PEERS: u8 = 32;
const SMALL: usize = 8;
const LARGE: usize = 1 << 20;
const MANY: usize = 3_900;

/// The resident memory of this process, in bytes.
fn resident() -> u64 {
    let status = read_to_string("/proc/self/status").unwrap();
    let line = status.lines().find_map(|it| it.strip_prefix("VmRSS:")).unwrap();
    line.trim().trim_end_matches(" kB").parse::<u64>().unwrap() << 10
}

/// The encoding of a message of so many bytes, which begin with its number.
fn payload(n: usize, len: usize) -> Vec<u8> {
    let mut payload = vec![7; len + 4];
    payload[..4].copy_from_slice(&(len as u32).to_be_bytes());
    payload[4..12].copy_from_slice(&n.to_be_bytes());
    payload
}

fn show(node: &Node<Vec<u8>>, before: u64, what: &str) {
    let charged: u64 = node.primary_peers().iter().map(|it| node.bytes_of(it)).sum();
    let kept = resident().saturating_sub(before);
    let aim = charged + charged / 5 + 400 * node.len() as u64;
    let of_aim = kept as f64 / aim as f64;
    let messages = node.len();
    println!("{what} | {messages} | {charged} | {kept} | {aim} | {of_aim:.2}");
}

fn main() -> Result<(), Error> {
    let keys: Vec<Key> = (0..PEERS).map(|it| Key::from([it; 32])).collect();
    let mut node = Node::<Vec<u8>>::new(keys[0], Limits::default().max_len(LARGE))?;
    node.update_primary_peers(&keys)?;
    let (attacker, others) = keys.split_last().unwrap();
    let before = resident();
    println!(
        "after | messages | charged | resident | 1.2 times charged, and 400 a message | of that"
    );
    for n in 0..others.len() * node.limits().deque_size {
        let _ = node.payload(&others[n % others.len()], payload(n, SMALL))?;
    }
    show(&node, before, "small messages");
    for n in 0..MANY {
        let _ = node.payload(attacker, payload(n, LARGE))?;
    }
    show(&node, before, "the attack");
    Ok(())
}
