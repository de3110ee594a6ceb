//! A message: who wrote it and when, a text, and the author's signature of the batch that it belongs to.
//!
//! ```text
//! signature 64 | public key 32 | stamp 8 | prev 8 | place in the batch 1 | hashes of the way 1 | hashes 32 each | text
//! ```
//!
//! `prev` is the stamp of the author's message before. The digest covers public key, stamp, prev and text. Numbers are big-endian.
//!
//! A signature covers the root of a hash tree over the digests of messages that were typed together. Each message carries the hashes
//! beside its way to the root, so it can be checked by itself, and who has checked one message of a batch need not check another.

use crate::identity::{Identity, PeerId, PublicKey};
use bytes::{Buf, Bytes};
use openssl::error::ErrorStack;
use openssl::sha::Sha256;
use std::iter::successors;
use std::ops::Range;

/// What is hashed beside the text.
const HEAD: Range<usize> = 64..112;
const PUBLIC: Range<usize> = 64..96;
const STAMP: Range<usize> = 96..104;
const PREV: Range<usize> = 104..112;
const PLACE: usize = 112;
const DEPTH: usize = 113;
const HASHES: usize = 114;
/// The most bytes of a text.
pub const MAX_TEXT: usize = 60_000;
/// The most bytes of a message.
pub const MAX_MESSAGE: usize = HASHES + 32 * MAX_DEPTH + MAX_TEXT;
/// Stands before what is hashed, so no signature is of use elsewhere.
const PURPOSE: &[u8] = b"broadcast-relay message 3";

/// A message as its author signed it.
#[derive(Clone, Debug)]
pub struct Signed {
    /// Whose message it is.
    pub author: PeerId,
    /// Nanoseconds since 1970 by the author's clock. An author gives each of its messages another one.
    pub stamp: u64,
    /// The stamp of the author's message before: this message covers `(prev, stamp]`.
    pub prev: u64,
    /// The whole of it, as it is sent and journaled.
    pub bytes: Bytes,
}

pub(crate) fn hash(parts: &[&[u8]]) -> Hash {
    let mut hasher = Sha256::new();
    parts.iter().for_each(|it| hasher.update(it));
    hasher.finish()
}

fn digest(head: &[u8], text: &[u8]) -> Hash {
    hash(&[PURPOSE, head, text])
}

impl Signed {
    /// Signs texts as one batch of at most 256. The first covers `(prev, stamp]`, and each other the stamp after the one before.
    pub fn batch(
        author: &Identity,
        first: (u64, u64),
        texts: &[Vec<u8>],
    ) -> Result<Vec<Signed>, ErrorStack> {
        let texts = &texts[..texts.len().min(MAX_BATCH)];
        let each = || successors(Some(first), |(_, stamp)| Some((*stamp, stamp + 1))).zip(texts);
        let head = |prev: u64, stamp: u64| {
            [&author.public[..], &stamp.to_be_bytes(), &prev.to_be_bytes()].concat()
        };
        let digests = each().map(|((prev, stamp), text)| digest(&head(prev, stamp), text));
        let (root, ways) = tree(&digests.collect::<Vec<_>>());
        let signature = author.sign(&root)?;
        let messages = each().zip(ways).enumerate().map(|(place, (((prev, stamp), text), way))| {
            let (place, hashes) = ([place as u8, way.len() as u8], way.concat());
            let bytes = [&signature[..], &head(prev, stamp), &place, &hashes, text].concat();
            Signed { author: author.id, stamp, prev, bytes: bytes.into() }
        });
        Ok(messages.collect())
    }

    fn text_at(&self) -> usize {
        HASHES + 32 * usize::from(self.bytes[DEPTH])
    }

    /// The text that its author wrote.
    pub fn text(&self) -> &[u8] {
        &self.bytes[self.text_at()..]
    }

    /// The batch's root and the signature of it. Whoever has checked both once has checked all messages of the batch.
    pub fn seal(&self) -> Seal {
        let (hashes, _) = self.bytes[HASHES..self.text_at()].as_chunks::<32>();
        let digest = digest(&self.bytes[HEAD], self.text());
        let root = root(digest, usize::from(self.bytes[PLACE]), hashes.iter());
        Seal { root, signature: self.bytes.first_chunk().copied().unwrap_or([0; 64]) }
    }

    /// The author's key, which is the same in all its messages.
    pub fn key(&self) -> Option<PublicKey> {
        PublicKey::parse(&self.bytes[PUBLIC])
    }

    /// Whether the author has signed the message, for whoever checks only one.
    pub fn is_signed(&self) -> bool {
        self.key().is_some_and(|it| self.seal().is_of(&it))
    }

    /// Reads a message, without a look at the signature.
    pub fn decode(bytes: Bytes) -> Result<Signed, &'static str> {
        let depth = usize::from(*bytes.get(DEPTH).ok_or("a message without its head")?);
        let text = HASHES + 32 * depth;
        if depth > MAX_DEPTH || bytes.len() < text || bytes.len() > text + MAX_TEXT {
            return Err("a message of a wrong length");
        }
        let (stamp, prev) = ((&bytes[STAMP]).get_u64(), (&bytes[PREV]).get_u64());
        if prev >= stamp {
            return Err("a message that comes before the one before it");
        }
        // Not by `sha256`, which looks the function up each time: a start would take twice as long to read its journals.
        Ok(Signed { author: hash(&[&bytes[PUBLIC]]), stamp, prev, bytes })
    }
}

/// A signature and what it is of.
#[derive(Clone, Copy, Debug, PartialEq, Eq)]
pub struct Seal {
    root: Hash,
    signature: [u8; 64],
}

impl Seal {
    /// Whether the owner of a key has signed it.
    pub fn is_of(&self, key: &PublicKey) -> bool {
        key.has_signed(&self.signature, &self.root)
    }
}

type Hash = [u8; 32];

/// The most messages of a batch, and the most hashes on a way.
pub const MAX_BATCH: usize = 1 << MAX_DEPTH;
const MAX_DEPTH: usize = 8;

/// Stands before what is hashed, so a node of the tree is never the digest of a message.
const NODE: &[u8] = b"broadcast-relay batch 2";

fn parent(left: &Hash, right: &Hash) -> Hash {
    hash(&[NODE, left, right])
}

/// The root of a tree and the way from each leaf to it. Missing leaves up to a power of two are zeros.
fn tree(leaves: &[Hash]) -> (Hash, Vec<Vec<Hash>>) {
    let mut level = leaves.to_vec();
    let mut ways = vec![Vec::new(); leaves.len()];
    let mut depth = 0;
    while level.len() > 1 {
        level.resize(level.len().next_multiple_of(2), [0; 32]);
        for (place, way) in ways.iter_mut().enumerate() {
            way.push(level[(place >> depth) ^ 1]);
        }
        level = level.chunks_exact(2).map(|it| parent(&it[0], &it[1])).collect();
        depth += 1;
    }
    (level.first().copied().unwrap_or_default(), ways)
}

/// The root to which a way leads from a leaf at a place.
fn root<'a>(leaf: Hash, place: usize, way: impl Iterator<Item = &'a Hash>) -> Hash {
    way.enumerate().fold(leaf, |hash, (depth, beside)| match place >> depth & 1 {
        0 => parent(&hash, beside),
        _ => parent(beside, &hash),
    })
}

#[cfg(test)]
mod tests {
    use super::*;

    #[test]
    fn a_message_is_read_back_and_no_other_has_its_seal() {
        let author = Identity::generate().unwrap();
        for count in [1, 2, 7, MAX_BATCH] {
            let texts: Vec<_> = (0..count).map(|it| vec![it as u8; it]).collect();
            let batch = Signed::batch(&author, (7, 1_000), &texts).unwrap();
            assert_eq!(batch.len(), count);
            let (seal, mut prev) = (batch[0].seal(), 7);
            for ((message, text), stamp) in batch.iter().zip(&texts).zip(1_000..) {
                let read = Signed::decode(message.bytes.clone()).unwrap();
                assert_eq!((read.author, read.prev, read.stamp), (author.id, prev, stamp));
                assert_eq!(read.text(), &text[..]);
                prev = stamp;
                assert!(read.seal() == seal && read.is_signed());
                for at in [0, PUBLIC.start, STAMP.start, PREV.end - 1, message.bytes.len() - 1] {
                    let mut bytes = message.bytes.to_vec();
                    bytes[at] ^= 1;
                    let forged = Signed::decode(bytes.into());
                    assert!(!forged.is_ok_and(|it| it.is_signed()), "byte {at}");
                }
            }
        }
    }

    #[test]
    fn what_has_a_wrong_length_is_no_message() {
        for len in [0, 1, DEPTH, HASHES - 1, HASHES + MAX_TEXT + 1] {
            assert!(Signed::decode(vec![0; len].into()).is_err(), "{len}");
        }
        let mut deep = vec![0; MAX_MESSAGE];
        deep[DEPTH] = MAX_DEPTH as u8 + 1;
        assert!(Signed::decode(deep.into()).is_err());
    }

    #[test]
    fn each_way_leads_to_the_root() {
        for count in [1, 2, 3, 5, 8, 100, MAX_BATCH] {
            let leaves: Vec<Hash> = (0..count).map(|it| [it as u8 ^ 0x55; 32]).collect();
            let (top, ways) = tree(&leaves);
            for (place, way) in ways.iter().enumerate() {
                assert!(way.len() <= MAX_DEPTH);
                assert_eq!(root(leaves[place], place, way.iter()), top);
                if count > 1 {
                    assert_ne!(root(parent(&top, &top), place, way.iter()), top);
                    assert_ne!(root(leaves[place], place ^ 1, way.iter()), top);
                }
            }
        }
    }
}
