//! What the words of a sentence stand for.

use crate::engines::{Key, TestMessage};
use broadcast_engine::{Digested, Feedback, Message, Recipients};
use bytes::Bytes;

/// What a message's name ends in if its commitment is not its content.
const MARK: &str = "'";

pub fn number(word: &str) -> u64 {
    word.parse().unwrap_or_else(|_| panic!("{word} is no number"))
}

/// The number behind a word, if the word is there.
pub fn number_behind(words: &[&str], name: &str) -> Option<u64> {
    let place = words.iter().position(|it| *it == name)?;
    Some(number(words[place + 1]))
}

/// The key of a number, in whose order keys are.
pub fn key(number: u64) -> Key {
    let mut key = [0; 32];
    key[..8].copy_from_slice(&number.to_be_bytes());
    key
}

pub fn number_of(key: &Key) -> u64 {
    u64::from_be_bytes(key[..8].try_into().unwrap())
}

pub fn keys(words: &[&str]) -> Vec<Key> {
    words.iter().map(|it| key(number(it))).collect()
}

/// The message of a name: its content is the name, and points up to the length behind the point of `a.40`. The
/// commitment is the content, or has one byte more if the name ends in `'`.
pub fn message(name: &str) -> TestMessage {
    let plain = name.strip_suffix(MARK).unwrap_or(name);
    let (word, len) = match plain.split_once('.') {
        Some((word, len)) => (word, number(len) as usize),
        None => (plain, plain.len()),
    };
    let mut content = word.as_bytes().to_vec();
    content.resize(len, b'.');
    let mut commitment = content.clone();
    commitment.extend_from_slice(&name.as_bytes()[plain.len()..]);
    TestMessage { commitment: commitment.into(), content: content.into() }
}

/// The name of a message, or `other` if it has none.
pub fn name_of(message: &TestMessage) -> String {
    let content = message.content.as_ref();
    let mark = match message.commitment.strip_prefix(content) {
        Some(b"") => "",
        Some(b"'") => MARK,
        _ => return "other".to_owned(),
    };
    match std::str::from_utf8(content) {
        Ok(text) => match text.split_once('.') {
            Some((word, _)) => format!("{word}.{}{mark}", content.len()),
            None => format!("{text}{mark}"),
        },
        Err(_) => "other".to_owned(),
    }
}

/// The message of a name, by the digest of another's.
pub fn digested(name: &str, goes_by: &str) -> Digested<TestMessage> {
    Digested::precomputed(message(name), message(goes_by).digest())
}

/// The name of the message with the encoding, or `other`.
pub fn name_of_payload(bytes: Bytes) -> String {
    TestMessage::decode(bytes, &usize::MAX).map_or("other".to_owned(), |it| name_of(&it))
}

/// The bytes of hexadecimal digits.
pub fn bytes(digits: &str) -> Bytes {
    digits
        .as_bytes()
        .chunks(2)
        .map(|it| u8::from_str_radix(std::str::from_utf8(it).unwrap(), 16).unwrap())
        .collect()
}

/// The recipients: all without keys, and none for `nobody`.
pub fn recipients(words: &[&str]) -> Recipients<Key> {
    match words {
        [] => Recipients::All,
        ["nobody"] => Recipients::Some(Vec::new()),
        [one] => Recipients::One(key(number(one))),
        _ => Recipients::Some(keys(words)),
    }
}

/// The words of recipients.
pub fn words_of(recipients: &Recipients<Key>) -> String {
    let keys = match recipients {
        Recipients::All => return "all".to_owned(),
        Recipients::One(key) => std::slice::from_ref(key),
        Recipients::Some(keys) => keys,
    };
    let numbers: Vec<_> = keys.iter().map(|it| number_of(it).to_string()).collect();
    if numbers.is_empty() { "nobody".to_owned() } else { numbers.join(" ") }
}

pub fn word_of(feedback: Feedback) -> &'static str {
    match feedback {
        Feedback::Ok => "ok",
        Feedback::Backoff => "backoff",
        Feedback::Closed => "closed",
        _ => "another feedback",
    }
}
