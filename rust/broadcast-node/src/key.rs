//! Keys of peers and digests of messages.

use std::borrow::Borrow;
use std::cmp::Ordering;
use std::fmt;
use std::hash::{Hash, Hasher};
use std::str::FromStr;

/// The key of a peer, of at most 64 bytes.
///
/// Keys are compared as their bytes are, so a key of another length is another key.
///
/// ```
/// use broadcast_node::Key;
///
/// let key = Key::from([0xab; 33]);
/// assert_eq!(key.as_bytes(), [0xab; 33]);
/// assert_eq!(key.to_string().parse(), Ok(key));
/// assert!(Key::try_from(&[0; 65][..]).is_err());
/// ```
#[derive(Clone, Copy, PartialEq, Eq)]
#[repr(transparent)]
pub struct Key([u8; Key::MAX_LEN + 1]); // the bytes, then zeros, and last their number

impl Key {
    /// The most bytes of a key.
    pub const MAX_LEN: usize = 64;

    /// Returns the bytes.
    pub fn as_bytes(&self) -> &[u8] {
        let [bytes @ .., len] = &self.0;
        bytes.get(..usize::from(*len)).unwrap_or(bytes)
    }
}

impl Ord for Key {
    fn cmp(&self, other: &Key) -> Ordering {
        self.as_bytes().cmp(other.as_bytes())
    }
}

impl PartialOrd for Key {
    fn partial_cmp(&self, other: &Key) -> Option<Ordering> {
        Some(self.cmp(other))
    }
}

impl Hash for Key {
    fn hash<H: Hasher>(&self, to: &mut H) {
        self.as_bytes().hash(to);
    }
}

/// A digest of 32 bytes, by which a message goes.
///
/// ```
/// use broadcast_node::Digest;
///
/// let digest = Digest::sha256(b"abc");
/// assert!(digest.to_string().starts_with("ba7816bf8f01cfea"));
/// assert_eq!(digest.to_string().parse(), Ok(digest));
/// ```
#[derive(Clone, Copy, Default, PartialEq, Eq, PartialOrd, Ord, Hash)]
#[repr(transparent)]
pub struct Digest([u8; Digest::LEN]);

impl Digest {
    /// The number of bytes of a digest.
    pub const LEN: usize = 32;

    /// Creates a digest of its bytes.
    pub const fn new(bytes: [u8; Digest::LEN]) -> Digest {
        Digest(bytes)
    }

    /// Computes the SHA-256 of the bytes, by the crate `sha2`, which uses the processor's instructions for it.
    pub fn sha256(bytes: &[u8]) -> Digest {
        Digest(<sha2::Sha256 as sha2::Digest>::digest(bytes).into())
    }

    /// Computes the SHA-256 of the bytes, by the verified library. It is several times slower where the processor has
    /// instructions for SHA-256.
    ///
    /// # Errors
    ///
    /// [`Error::Processor`](crate::Error) and [`Error::Version`](crate::Error), as [`Cache::new`](crate::Cache::new).
    pub fn verified_sha256(bytes: &[u8]) -> Result<Digest, crate::Error> {
        crate::raw::sha256(bytes)
    }

    /// Returns the bytes.
    pub const fn as_bytes(&self) -> &[u8; Digest::LEN] {
        &self.0
    }
}

/// The error of bytes, or of a text, that are no key or no digest.
#[derive(Clone, Copy, Debug, PartialEq, Eq)]
#[non_exhaustive]
pub enum ParseError {
    /// The bytes are more than a key has.
    KeyLength(usize),
    /// The bytes are more or fewer than a digest has.
    DigestLength(usize),
    /// A character is not hexadecimal, or one half of a byte is lacking.
    NotHex,
}

impl fmt::Display for ParseError {
    fn fmt(&self, f: &mut fmt::Formatter<'_>) -> fmt::Result {
        match self {
            ParseError::KeyLength(found) => {
                write!(f, "a key of {found} bytes, and at most {} are allowed", Key::MAX_LEN)
            }
            ParseError::DigestLength(found) => {
                write!(f, "a digest of {found} bytes, and it must have {}", Digest::LEN)
            }
            ParseError::NotHex => f.write_str("not hexadecimal"),
        }
    }
}

impl std::error::Error for ParseError {}

impl<const N: usize> From<[u8; N]> for Key {
    /// Returns the key of these bytes. More than 64 do not compile.
    fn from(bytes: [u8; N]) -> Key {
        const { assert!(N <= Key::MAX_LEN, "a key has at most 64 bytes") };
        let mut key = [0; Key::MAX_LEN + 1];
        key[..N].copy_from_slice(&bytes);
        key[Key::MAX_LEN] = N as u8;
        Key(key)
    }
}

impl TryFrom<&[u8]> for Key {
    type Error = ParseError;

    fn try_from(bytes: &[u8]) -> Result<Key, ParseError> {
        let mut key = [0; Key::MAX_LEN + 1];
        let [room @ .., len] = &mut key;
        let room = room.get_mut(..bytes.len()).ok_or(ParseError::KeyLength(bytes.len()))?;
        room.copy_from_slice(bytes);
        *len = bytes.len() as u8;
        Ok(Key(key))
    }
}

impl From<[u8; Digest::LEN]> for Digest {
    fn from(bytes: [u8; Digest::LEN]) -> Digest {
        Digest(bytes)
    }
}

impl AsRef<[u8; Digest::LEN]> for Digest {
    fn as_ref(&self) -> &[u8; Digest::LEN] {
        &self.0
    }
}

impl TryFrom<&[u8]> for Digest {
    type Error = ParseError;

    fn try_from(bytes: &[u8]) -> Result<Digest, ParseError> {
        let bytes = bytes.try_into().map_err(|_| ParseError::DigestLength(bytes.len()))?;
        Ok(Digest(bytes))
    }
}

impl From<Digest> for [u8; Digest::LEN] {
    fn from(digest: Digest) -> [u8; Digest::LEN] {
        digest.0
    }
}

/// Reads hexadecimal into the room, and returns how many bytes there are. They may be too many.
fn read_hex(
    text: &str,
    room: &mut [u8],
    too_many: fn(usize) -> ParseError,
) -> Result<usize, ParseError> {
    let pairs = text.as_bytes().chunks_exact(2);
    let len = pairs.len();
    if !pairs.remainder().is_empty() {
        return Err(ParseError::NotHex);
    }
    let room = room.get_mut(..len).ok_or(too_many(len))?;
    for (byte, pair) in room.iter_mut().zip(pairs) {
        *byte = half(pair[0])? << 4 | half(pair[1])?;
    }
    Ok(len)
}

fn half(digit: u8) -> Result<u8, ParseError> {
    let value = char::from(digit).to_digit(16).ok_or(ParseError::NotHex)?;
    Ok(value as u8)
}

impl FromStr for Key {
    type Err = ParseError;

    /// Reads hexadecimal.
    fn from_str(text: &str) -> Result<Key, ParseError> {
        let mut key = [0; Key::MAX_LEN + 1];
        let len = read_hex(text, &mut key[..Key::MAX_LEN], ParseError::KeyLength)?;
        key[Key::MAX_LEN] = len as u8;
        Ok(Key(key))
    }
}

impl FromStr for Digest {
    type Err = ParseError;

    /// Reads hexadecimal.
    fn from_str(text: &str) -> Result<Digest, ParseError> {
        let mut digest = [0; Digest::LEN];
        match read_hex(text, &mut digest, ParseError::DigestLength)? {
            Digest::LEN => Ok(Digest(digest)),
            other => Err(ParseError::DigestLength(other)),
        }
    }
}

macro_rules! bytes_as_hex {
    ($name:ident) => {
        impl AsRef<[u8]> for $name {
            fn as_ref(&self) -> &[u8] {
                self.as_bytes()
            }
        }

        impl Borrow<[u8]> for $name {
            fn borrow(&self) -> &[u8] {
                self.as_bytes()
            }
        }

        impl fmt::LowerHex for $name {
            fn fmt(&self, f: &mut fmt::Formatter<'_>) -> fmt::Result {
                self.as_bytes().iter().try_for_each(|byte| write!(f, "{byte:02x}"))
            }
        }

        impl fmt::Display for $name {
            /// Writes lower-case hexadecimal.
            fn fmt(&self, f: &mut fmt::Formatter<'_>) -> fmt::Result {
                fmt::LowerHex::fmt(self, f)
            }
        }

        impl fmt::Debug for $name {
            fn fmt(&self, f: &mut fmt::Formatter<'_>) -> fmt::Result {
                write!(f, "{}({self})", stringify!($name))
            }
        }

        #[cfg(feature = "serde")]
        impl serde::Serialize for $name {
            /// Writes hexadecimal where a person reads, and bytes elsewhere.
            fn serialize<S: serde::Serializer>(&self, to: S) -> Result<S::Ok, S::Error> {
                match to.is_human_readable() {
                    true => to.collect_str(self),
                    false => to.serialize_bytes(self.as_bytes()),
                }
            }
        }

        #[cfg(feature = "serde")]
        impl<'de> serde::Deserialize<'de> for $name {
            fn deserialize<D: serde::Deserializer<'de>>(from: D) -> Result<Self, D::Error> {
                use crate::de::Hex;
                match from.is_human_readable() {
                    true => from.deserialize_str(Hex::<$name>::new()),
                    false => from.deserialize_bytes(Hex::<$name>::new()),
                }
            }
        }
    };
}

bytes_as_hex!(Key);
bytes_as_hex!(Digest);
