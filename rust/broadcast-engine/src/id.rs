//! The names by which the cache knows keys and digests.

use broadcast_node::{Digest, Key};
use std::any::Any;
use std::fmt;
use std::hash::Hash;

/// A public key or a digest: any value that is named by its bytes. Values of one type may have several lengths.
///
/// The cache knows a key of at most 64 bytes by its bytes, and a longer one by its SHA-256 behind 32 bytes with which no
/// other key begins. [`Message::name_of`](crate::Message::name_of) says by what it knows a digest.
pub trait Id: AsRef<[u8]> + Clone + Ord + Hash + Send + Sync + 'static {}

impl<T: AsRef<[u8]> + Clone + Ord + Hash + Send + Sync + 'static> Id for T {}

/// What the cache's key of a hashed value begins with. A value that begins so is hashed too, so nobody can choose one.
const HASHED: &[u8; 32] = b"broadcast-engine: SHA-256 of key";

/// Returns the key by which the cache knows a peer.
pub fn key(value: &impl Id) -> Key {
    let bytes = value.as_ref();
    match Key::try_from(bytes) {
        Ok(key) if !bytes.starts_with(HASHED) => key,
        _ => {
            let mut key = [0; Key::MAX_LEN];
            key[..HASHED.len()].copy_from_slice(HASHED);
            key[HASHED.len()..].copy_from_slice(Digest::sha256(bytes).as_bytes());
            Key::from(key)
        }
    }
}

/// Returns the digest by which the cache knows a message. It goes by the type: if some values of a type stood for
/// themselves and others were hashed, one of the first could be chosen to be the hash of another.
pub fn digest<T: Id>(value: &T) -> Digest {
    let any: &dyn Any = value;
    let itself = any.downcast_ref::<[u8; Digest::LEN]>().copied().map(Digest::new);
    itself
        .or_else(|| any.downcast_ref::<Digest>().copied())
        .unwrap_or_else(|| Digest::sha256(value.as_ref()))
}

/// Writes the bytes of a value as metrics and logs show it, in hexadecimal.
pub struct Hex<'a>(pub &'a [u8]);

impl fmt::Display for Hex<'_> {
    fn fmt(&self, f: &mut fmt::Formatter<'_>) -> fmt::Result {
        self.0.iter().try_for_each(|it| write!(f, "{it:02x}"))
    }
}
