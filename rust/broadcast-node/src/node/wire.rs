//! The encoding of a message: its length in four bytes, highest first, and then its bytes.

use crate::{Error, raw};
use std::fmt;

/// Why a payload does not decode.
#[derive(Clone, Copy, Debug, PartialEq, Eq, Hash)]
#[cfg_attr(feature = "serde", derive(serde::Serialize, serde::Deserialize))]
#[non_exhaustive]
pub enum Invalid {
    /// It ends too early.
    EndOfBuffer,
    /// The length that it says is above the limit.
    InvalidLength(usize),
    /// This number of bytes follows the message.
    ExtraData(usize),
}

impl fmt::Display for Invalid {
    fn fmt(&self, f: &mut fmt::Formatter<'_>) -> fmt::Result {
        match self {
            Invalid::EndOfBuffer => f.write_str("the bytes end too early"),
            Invalid::InvalidLength(len) => write!(f, "a length of {len} is out of the range"),
            Invalid::ExtraData(len) => write!(f, "{len} bytes are left over"),
        }
    }
}

impl std::error::Error for Invalid {}

/// Returns the message of a payload, if it has at most `max_len` bytes.
pub fn decode(payload: &[u8], max_len: usize) -> Result<&[u8], Invalid> {
    Ok(&payload[raw::packet_read(payload, max_len)?])
}

/// Returns the message of a payload that was decoded or encoded before.
pub fn message_of(payload: &[u8]) -> &[u8] {
    payload.get(4..).unwrap_or_default()
}

/// Returns the payload of a message of at most `max_len` bytes.
pub fn encode(message: &[u8], max_len: usize) -> Result<Vec<u8>, Error> {
    let allowed = max_len.min(u32::MAX as usize);
    let head = raw::packet_head(message.len()).filter(|_| message.len() <= allowed);
    let head = head.ok_or(Error::TooLong { found: message.len(), allowed })?;
    let mut payload = Vec::new();
    payload.try_reserve_exact(head.len() + message.len())?;
    payload.extend_from_slice(&head);
    payload.extend_from_slice(message);
    Ok(payload)
}

#[cfg(test)]
mod tests {
    use super::*;

    /// The same in plain Rust.
    fn plain(payload: &[u8], max_len: usize) -> Result<&[u8], Invalid> {
        let (head, rest) = payload.split_first_chunk().ok_or(Invalid::EndOfBuffer)?;
        match u32::from_be_bytes(*head) as usize {
            len if len > max_len => Err(Invalid::InvalidLength(len)),
            len if len > rest.len() => Err(Invalid::EndOfBuffer),
            len if len < rest.len() => Err(Invalid::ExtraData(rest.len() - len)),
            _ => Ok(rest),
        }
    }

    /// All payloads of up to 8 of these bytes, and some that are long.
    #[test]
    fn is_read_as_in_plain_rust() {
        const BYTES: [u8; 4] = [0, 1, 3, 255];
        for len in 0..=8 {
            for number in 0..BYTES.len().pow(len) {
                let at = |place| BYTES[number / BYTES.len().pow(place) % BYTES.len()];
                let payload: Vec<u8> = (0..len).map(at).collect();
                for max_len in [0, 2, 3, usize::MAX] {
                    assert_eq!(decode(&payload, max_len), plain(&payload, max_len));
                }
            }
        }
        for len in [0, 1, 255, 256, 65_535, 65_536, 1 << 20] {
            let mut payload = encode(&vec![7; len], len).unwrap();
            assert_eq!(decode(&payload, len), Ok(&vec![7; len][..]));
            assert_eq!(decode(&payload[..len], len), Err(Invalid::EndOfBuffer));
            if len > 0 {
                assert_eq!(decode(&payload, len - 1), Err(Invalid::InvalidLength(len)));
            }
            payload.push(7);
            assert_eq!(decode(&payload, len), Err(Invalid::ExtraData(1)));
        }
        let longest = u32::MAX as usize;
        assert_eq!(raw::packet_head(longest), Some([255; 4]));
        assert!([longest + 1, usize::MAX].into_iter().all(|it| raw::packet_head(it).is_none()));
    }
}
