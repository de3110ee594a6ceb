//! The event file.

use crate::codec::{Digested, Message};
use crate::engine::{Event, PeerSet, Recipients};
use crate::hexa;
use crate::sha::{Digest, sha256};
use std::io::BufRead;
use std::sync::Arc;

/// Splits the text at the first such byte, by the standard library's fast search.
fn cut(text: &[u8], byte: u8) -> (&[u8], Option<&[u8]>) {
    let mut after = text;
    let used = after.skip_until(byte).unwrap_or(0);
    match text[..used].split_last() {
        Some((last, before)) if *last == byte => (before, Some(after)),
        _ => (text, None),
    }
}

/// The parts of a text between separators: one part more than there are separators.
struct Parts<'a> {
    rest: Option<&'a [u8]>,
    separator: u8,
}

impl<'a> Iterator for Parts<'a> {
    type Item = &'a [u8];

    fn next(&mut self) -> Option<&'a [u8]> {
        let (part, rest) = cut(self.rest?, self.separator);
        self.rest = rest;
        Some(part)
    }
}

fn parts(text: &[u8], separator: u8) -> Parts<'_> {
    Parts {
        rest: Some(text),
        separator,
    }
}

/// A decimal number without sign and without leading zeros.
pub fn number(word: &[u8]) -> Option<u64> {
    match word {
        [b'0'] => Some(0),
        [b'1'..=b'9', ..] => word.iter().try_fold(0u64, |sum, digit| {
            let digit = digit.wrapping_sub(b'0');
            if digit > 9 {
                return None;
            }
            sum.checked_mul(10)?.checked_add(digit.into())
        }),
        _ => None,
    }
}

fn numbers<'a>(words: impl Iterator<Item = &'a [u8]>) -> Option<Vec<u64>> {
    words.map(number).collect()
}

fn byte_list(word: &[u8]) -> Option<Vec<u8>> {
    if word == b"-" {
        Some(Vec::new())
    } else {
        hexa::decode(word)
    }
}

fn named(word: &[u8]) -> Option<Digest> {
    Some(sha256(&byte_list(word)?))
}

fn recipients(word: &[u8]) -> Option<Recipients> {
    if word == b"all" {
        return Some(Recipients::All);
    }
    let keys = word.strip_prefix(b"to:")?;
    Some(Recipients::Keys(numbers(parts(keys, b','))?))
}

fn event(line: &[u8]) -> Option<Event> {
    let mut words = parts(line, b' ');
    let event = match words.next()? {
        b"peers" => return Some(Event::Peers(PeerSet::from_keys(numbers(words)?))),
        b"cleanup" => return Some(Event::Cleanup(numbers(words)?)),
        b"broadcast" => {
            let to = recipients(words.next()?)?;
            let commitment = byte_list(words.next()?)?;
            let content = byte_list(words.next()?)?;
            let digest = match words.next() {
                None => sha256(&content),
                Some(word) => named(word.strip_prefix(b"as:")?)?,
            };
            let message = Arc::new(Message {
                commitment,
                content,
            });
            Event::Broadcast(to, Digested { message, digest })
        }
        b"payload" => Event::Payload(number(words.next()?)?, byte_list(words.next()?)?),
        b"subscribe" => Event::Subscribe(number(words.next()?)?, named(words.next()?)?),
        b"get" => Event::Get(number(words.next()?)?, named(words.next()?)?),
        _ => return None,
    };
    words.next().is_none().then_some(event)
}

/// The events of a whole file, or the number of the first line that is not one.
#[inline(never)]
pub fn events(input: &[u8]) -> Result<Vec<Event>, usize> {
    let mut events = Vec::new();
    let mut rest = Some(input);
    while let Some(text) = rest
        && !text.is_empty()
    {
        let (line, after) = cut(text, b'\n');
        events.push(event(line).ok_or(events.len() + 1)?);
        rest = after;
    }
    Ok(events)
}
