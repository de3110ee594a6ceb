//! What hostile calls leave in memory, as the system counts it.

use broadcast_node::{Cache, Digest, Error, Key, Limits, Node, Outcome, Received, Subscribed};
use std::fs::read_to_string;

/// The resident memory of this process, in bytes.
fn resident() -> usize {
    let status = read_to_string("/proc/self/status").unwrap();
    let line = status.lines().find_map(|it| it.strip_prefix("VmRSS:")).unwrap();
    line.trim().trim_end_matches(" kB").parse::<usize>().unwrap() << 10
}

const MANY: usize = 64 << 20;

fn digest(n: usize) -> Digest {
    Digest::sha256(&n.to_be_bytes())
}

fn main() -> Result<(), Error> {
    let before = resident();
    a_refused_message_costs_nothing(before)?;
    strangers_cost_nothing(before)?;
    waiters_are_given_back(before)?;
    evicted_messages_are_given_back(before)?;
    println!("resident: ok");
    Ok(())
}

fn grew(before: usize, what: &str) {
    let more = resident().saturating_sub(before);
    assert!(more < MANY / 8, "{what}: {more} bytes more");
}

/// A message of a stranger, and one above the budget, are as long as they like: reads stay as they were.
fn a_refused_message_costs_nothing(before: usize) -> Result<(), Error> {
    let (own, stranger) = (Key::from([1; 32]), Key::from([2; 32]));
    let mut node = Node::<Vec<u8>>::new(own, Limits::default())?;
    node.update_primary_peers(&[own])?;
    let _ = node.payload_as(&own, &digest(0), b"\0\0\0\x05hello".to_vec())?;
    let mut long = (MANY as u32).to_be_bytes().to_vec();
    long.resize(MANY + 4, 7);
    for key in [stranger, own] {
        assert!(matches!(node.payload(&key, long.clone())?, Received::Invalid(_)));
        assert_eq!(node.get(&digest(0)), Some(&b"hello"[..]));
        assert_eq!(node.list(&own)?.len(), 1);
    }
    drop(long);
    grew(before, "refused messages");
    Ok(())
}

/// Strangers make nothing grow, whatever they send.
fn strangers_cost_nothing(before: usize) -> Result<(), Error> {
    let own = Key::from([1; 32]);
    let mut node = Node::<Vec<u8>>::new(own, Limits::default())?;
    node.update_primary_peers(&[own])?;
    let _ = node.subscribe(&digest(usize::MAX))?;
    for n in 0..100_000_usize {
        let key = Key::try_from(&digest(n).as_bytes()[..n % 33]).unwrap();
        let payload = [&1_000_u32.to_be_bytes()[..], &[n as u8; 1_000]].concat();
        match node.payload_as(&key, &digest(n), payload)? {
            Received::Taken(it) => assert_eq!(it.outcome, Outcome::Ineligible),
            other => panic!("{other:?}"),
        }
    }
    assert_eq!(node.other_counters().ineligible, 100_000);
    grew(before, "strangers");
    Ok(())
}

/// Many that wait are served, or dropped, and their room is given back.
fn waiters_are_given_back(before: usize) -> Result<(), Error> {
    let own = Key::from([1; 32]);
    let mut cache = Cache::<()>::new(own, 10, 1_000)?;
    let mut tickets = Vec::new();
    for _ in 0..MANY / 32 {
        match cache.subscribe(&digest(0))? {
            Subscribed::Waiting(ticket) => tickets.push(ticket),
            other => panic!("{other:?}"),
        }
    }
    assert_eq!(cache.take_own(&digest(0), 1, ())?.served, tickets);
    drop(tickets);
    let _ = cache.subscribe(&digest(1))?;
    let _ = cache.take_own(&digest(2), 1, ())?;
    grew(before, "waiters");
    Ok(())
}

/// A list keeps its budget, and the messages that left it are gone.
fn evicted_messages_are_given_back(before: usize) -> Result<(), Error> {
    let own = Key::from([1; 32]);
    let mut cache = Cache::new(own, 100, 1 << 20)?;
    cache.update_primary_peers(&[own])?;
    for n in 0..MANY >> 10 {
        let _ = cache.take_own(&digest(n), 1 << 16, vec![n as u8; 1 << 16])?;
    }
    assert_eq!(cache.len(), 16);
    grew(before, "evicted messages");
    cache.update_primary_peers(&[])?;
    assert!(cache.is_empty());
    Ok(())
}
