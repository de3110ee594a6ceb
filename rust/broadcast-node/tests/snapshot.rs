//! Snapshots that were changed before they are restored: those of a cache with other limits, of a file, of an attacker.

mod common;

use broadcast_node::{
    Cache, Digest, Error, Invalid, Limits, Node, Received, RestoreError, Snapshot,
};
use common::{Random, digest, encoded, key, some_keys};

const SIZE: usize = 5;
const BUDGET: u64 = 2_000;

/// A cache after random calls.
fn some_cache(random: &mut Random) -> Result<Cache<u64>, Error> {
    let mut cache = Cache::new(key(1), SIZE, BUDGET)?;
    for _ in 0..2 {
        cache.update_primary_peers(&some_keys(random))?;
        for _ in 0..50 {
            let (peer, number) = (key(random.below(8)), random.below(20));
            drop(cache.take(&peer, &digest(number), random.place(600), number)?);
        }
    }
    Ok(cache)
}

/// Changes the snapshot in one of some ways.
fn corrupt<M: Clone>(random: &mut Random, it: &mut Snapshot<M>) {
    let lists: Vec<usize> = (0..it.lists.len()).filter(|at| !it.lists[*at].1.is_empty()).collect();
    if lists.is_empty() {
        return;
    }
    let list = lists[random.place(lists.len())];
    let entry = random.place(it.lists[list].1.len());
    let message = random.place(it.messages.len());
    match random.below(12) {
        0 => drop(it.lists.swap_remove(list)),
        1 => it.lists.push(it.lists[list].clone()),
        2 => it.lists[list].0 = key(random.below(9)),
        3 => it.lists[list].1.extend_from_within(entry..=entry),
        4 => drop(it.lists[list].1.remove(entry)),
        5 => it.lists[list].1[entry].0 = digest(random.below(25)),
        6 => it.lists[list].1[entry].1 = random.place(700),
        7 => it.lists[list].1[entry].1 = usize::MAX,
        8 => drop(it.messages.swap_remove(message)),
        9 => it.messages.push(it.messages[message].clone()),
        10 => it.messages[message].0 = digest(random.below(25)),
        _ => it.lists[list].1.reverse(),
    }
}

/// The same lists, in the order of a cache.
fn sorted<M>(mut it: Snapshot<M>) -> Snapshot<M> {
    it.lists.sort_by_key(|it| it.0);
    it.messages.sort_by_key(|it| it.0);
    it
}

#[test]
fn a_corrupted_snapshot_is_refused_or_restored_as_it_is() -> Result<(), Error> {
    let mut random = Random::new(7);
    let mut refused = std::collections::BTreeMap::new();
    let mut restored = 0;
    for _ in 0..1_500 {
        let mut snapshot = some_cache(&mut random)?.snapshot()?;
        (0..random.below(3)).for_each(|_| corrupt(&mut random, &mut snapshot));
        match Cache::restore(key(1), SIZE, BUDGET, snapshot.clone()) {
            Ok(mut cache) => {
                assert_eq!(sorted(cache.snapshot()?), sorted(snapshot));
                restored += 1;
            }
            Err(error) => {
                let name = format!("{error:?}");
                *refused.entry(name[..7].to_string()).or_insert(0) += 1;
            }
        }
    }
    println!("{restored} restored, {refused:?}");
    // Repeated (list, digest, message), NoMessage, Unlisted, TooManyDigests, TooManyBytes.
    assert!(restored > 300 && refused.len() == 4 && refused.values().all(|it| *it > 30));
    Ok(())
}

#[test]
fn what_does_not_fit_is_named() {
    let (one, other) = (digest(1), digest(2));
    let lists = |list: &[(Digest, usize)]| vec![(key(1), list.to_vec())];
    let restore = |lists, digests: &[Digest]| {
        let messages = digests.iter().map(|it| (*it, 1, ())).collect();
        Cache::restore(key(1), 2, 10, Snapshot::new(lists, messages)).map(|it| it.len())
    };
    assert_eq!(restore(lists(&[(one, 4), (other, 6)]), &[other, one]), Ok(2));
    assert_eq!(restore(vec![], &[]), Ok(0));
    let too_many = RestoreError::TooManyDigests { key: key(1), found: 3, allowed: 2 };
    assert_eq!(restore(lists(&[(one, 1), (other, 1), (digest(3), 1)]), &[]), Err(too_many));
    let too_many = |found| RestoreError::TooManyBytes { key: key(1), found, allowed: 10 };
    assert_eq!(restore(lists(&[(one, 4), (other, 7)]), &[one, other]), Err(too_many(11)));
    let most = usize::MAX as u128 * 2;
    assert_eq!(restore(lists(&[(one, usize::MAX); 2]), &[one]), Err(too_many(most)));
    let repeated = RestoreError::RepeatedDigest(key(1), one);
    assert_eq!(restore(lists(&[(one, 1), (one, 1)]), &[one]), Err(repeated));
    let repeated = RestoreError::RepeatedList(key(1));
    assert_eq!(restore([lists(&[]), lists(&[])].concat(), &[]), Err(repeated));
    let repeated = RestoreError::RepeatedMessage(one);
    assert_eq!(restore(lists(&[(one, 1)]), &[one, other, one]), Err(repeated));
    assert_eq!(restore(lists(&[(one, 1)]), &[]), Err(RestoreError::NoMessage(one)));
    assert_eq!(restore(lists(&[(one, 1)]), &[one, other]), Err(RestoreError::Unlisted(other)));
}

/// A file that says that large payloads are charged nothing, or that has payloads which do not decode.
#[test]
fn a_node_trusts_no_number() {
    let limits = Limits::default().byte_budget(100).max_len(50);
    let restore = |charge: usize, payloads: &[Vec<u8>]| {
        let named = || (1..).map(digest).zip(payloads);
        let list = named().map(|it| (it.0, charge)).collect();
        let messages = named().map(|it| (it.0, charge, it.1.clone())).collect();
        let node = Node::restore(key(1), limits, Snapshot::new(vec![(key(1), list)], messages))?;
        Ok((node.len(), node.bytes(), node.bytes_of(&key(1))))
    };
    let payload = encoded(&[7; 46]);
    for charge in [0, 50, usize::MAX] {
        assert_eq!(restore(charge, &vec![payload.clone(); 2]), Ok((2, 100, 100)));
        let too_many = RestoreError::TooManyBytes { key: key(1), found: 150, allowed: 100 };
        assert_eq!(restore(charge, &vec![payload.clone(); 3]), Err(too_many));
    }
    let refused = |reason| Err(RestoreError::Invalid(digest(2), reason));
    let second = |it: Vec<u8>| restore(4, &[encoded(b""), it]);
    assert_eq!(second(vec![0; 2]), refused(Invalid::EndOfBuffer));
    assert_eq!(second(encoded(&[7; 51])), refused(Invalid::InvalidLength(51)));
    assert_eq!(second([payload, vec![7]].concat()), refused(Invalid::ExtraData(1)));
}

#[test]
fn a_restored_node_has_its_messages_and_counts_anew() -> Result<(), RestoreError> {
    let mut node = Node::<Vec<u8>>::new(key(1), Limits::default())?;
    node.update_primary_peers(&[key(1), key(2)])?;
    assert!(matches!(node.payload(&key(2), encoded(b"hello")), Ok(Received::Taken(_))));
    let mut restored = Node::restore(key(1), Limits::default(), node.snapshot()?)?;
    assert_eq!(restored.snapshot(), node.snapshot());
    assert_eq!(restored.get(&Digest::sha256(b"hello")), Some(&b"hello"[..]));
    assert_eq!((node.counters(&key(2)).inserted, restored.counters(&key(2)).inserted), (1, 0));
    Ok(())
}

/// Bytes of a file are changed or cut.
#[cfg(feature = "serde")]
#[test]
fn a_snapshot_of_a_file_is_read_or_refused() -> Result<(), Error> {
    let mut random = Random::new(9);
    let (mut unread, mut refused, mut restored) = (0, 0, 0);
    for _ in 0..500 {
        let mut cache = some_cache(&mut random)?;
        let text = serde_json::to_string(&cache.snapshot()?).unwrap();
        let read: Snapshot<u64> = serde_json::from_str(&text).unwrap();
        assert_eq!(read, cache.snapshot()?);
        let mut bytes = text.into_bytes();
        match random.below(4) {
            0 => bytes.truncate(random.place(bytes.len())),
            _ => {
                let place = random.place(bytes.len());
                bytes[place] = b"0123456789abcdef,[]\""[random.place(20)];
            }
        }
        match serde_json::from_slice::<Snapshot<u64>>(&bytes) {
            Err(_) => unread += 1,
            Ok(read) => match Cache::restore(key(1), SIZE, BUDGET, read.clone()) {
                Err(_) => refused += 1,
                Ok(mut cache) => {
                    assert_eq!(sorted(cache.snapshot()?), sorted(read));
                    restored += 1;
                }
            },
        }
    }
    println!("{unread} unread, {refused} refused, {restored} restored");
    assert!(unread > 50 && refused > 50 && restored > 5);
    Ok(())
}
