//! Reading keys and digests by serde.

use crate::ParseError;
use serde::de::{Error, SeqAccess, Visitor};
use std::fmt;
use std::marker::PhantomData;
use std::str::FromStr;

/// Takes hexadecimal, and bytes.
pub struct Hex<T>(PhantomData<T>);

impl<T> Hex<T> {
    pub fn new() -> Hex<T> {
        Hex(PhantomData)
    }
}

impl<'de, T> Visitor<'de> for Hex<T>
where
    T: FromStr<Err = ParseError> + for<'a> TryFrom<&'a [u8], Error = ParseError>,
{
    type Value = T;

    fn expecting(&self, f: &mut fmt::Formatter<'_>) -> fmt::Result {
        f.write_str("bytes, or their hexadecimal")
    }

    fn visit_str<E: Error>(self, text: &str) -> Result<T, E> {
        text.parse().map_err(E::custom)
    }

    fn visit_bytes<E: Error>(self, bytes: &[u8]) -> Result<T, E> {
        T::try_from(bytes).map_err(E::custom)
    }

    fn visit_seq<A: SeqAccess<'de>>(self, mut bytes: A) -> Result<T, A::Error> {
        let (mut room, mut len) = ([0; crate::Key::MAX_LEN], 0);
        while let Some(byte) = bytes.next_element()? {
            let place =
                room.get_mut(len).ok_or(A::Error::invalid_length(len + 1, &"at most 64"))?;
            (*place, len) = (byte, len + 1);
        }
        T::try_from(&room[..len]).map_err(A::Error::custom)
    }
}
