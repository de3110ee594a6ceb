//! Keys and digests as texts and as bytes.

use broadcast_node::{Digest, Key, ParseError};

fn keys() -> impl Iterator<Item = (Vec<u8>, Key)> {
    (0..=Key::MAX_LEN).map(|len| {
        let bytes: Vec<u8> = (0..len).map(|n| (n * 5) as u8).collect();
        let key = Key::try_from(&bytes[..]).unwrap();
        (bytes, key)
    })
}

#[test]
fn a_key_has_its_bytes() {
    for (bytes, key) in keys() {
        assert_eq!(key.as_bytes(), bytes);
        assert_eq!(key.to_string().len(), 2 * bytes.len());
        assert_eq!(key.to_string().parse(), Ok(key));
    }
    assert_eq!(Key::try_from(&[7; 65][..]), Err(ParseError::KeyLength(65)));
    assert_eq!(Key::from([7; 3]).as_ref(), [7; 3]);
    assert_eq!(format!("{:?}", Key::from([1, 0xab])), "Key(01ab)");
}

/// As their bytes are: a key that another begins with is less.
#[test]
fn keys_are_ordered() {
    let sorted: [&[u8]; 6] = [b"", b"\0", b"\0\0", b"\0a", b"a", b"b"];
    let keys: Vec<Key> = sorted.iter().map(|it| Key::try_from(*it).unwrap()).collect();
    assert!(keys.is_sorted_by(|one, other| one < other));
}

#[test]
fn what_is_no_text_of_a_key_or_digest_is_refused() {
    assert_eq!("".parse(), Ok(Key::from([])));
    assert_eq!("aB".parse(), Ok(Key::from([0xab])));
    for text in ["a", "abc", "0g", " 0", "0x00", "é "] {
        assert_eq!(text.parse::<Key>(), Err(ParseError::NotHex), "{text}");
        assert_eq!(text.parse::<Digest>(), Err(ParseError::NotHex), "{text}");
    }
    assert_eq!("00".repeat(65).parse::<Key>(), Err(ParseError::KeyLength(65)));
    assert_eq!("00".repeat(31).parse::<Digest>(), Err(ParseError::DigestLength(31)));
    assert_eq!("00".repeat(33).parse::<Digest>(), Err(ParseError::DigestLength(33)));
    assert_eq!("00".repeat(32).parse(), Ok(Digest::default()));
    assert_eq!(Digest::try_from(&[1; 31][..]), Err(ParseError::DigestLength(31)));
}

#[cfg(feature = "serde")]
#[test]
fn keys_and_digests_are_hexadecimal_in_json() {
    use serde_json::{from_str, from_value, json, to_string};
    for (bytes, key) in keys() {
        let text = to_string(&key).unwrap();
        assert_eq!(text, format!("\"{key}\""));
        assert_eq!(from_str::<Key>(&text).unwrap(), key);
        assert_eq!(from_value::<Key>(json!(key.to_string())).unwrap().as_bytes(), bytes);
    }
    let digest = Digest::sha256(b"abc");
    assert_eq!(from_str::<Digest>(&to_string(&digest).unwrap()).unwrap(), digest);
    assert!(from_str::<Digest>("\"00\"").is_err() && from_str::<Key>("7").is_err());
}

/// A field that a text lacks has its default, so older texts are read.
#[cfg(feature = "serde")]
#[test]
fn limits_and_counters_are_read_of_a_part() {
    use broadcast_node::{Counters, Limits};
    use serde_json::from_str;
    let limits: Limits = from_str(r#"{"deque_size": 5}"#).unwrap();
    assert_eq!(limits, Limits::default().deque_size(5));
    assert_eq!(from_str::<Counters>(r#"{"invalid": 7}"#).unwrap().invalid, 7);
}

/// By the processor's instructions, and by the verified library.
#[test]
fn both_functions_compute_the_same_sha256() {
    let bytes: Vec<u8> = (0..1_000_003_u32).map(|n| (n ^ n >> 8) as u8).collect();
    for len in (0..=300).chain([4_095, 65_536, 1_000_003]) {
        let verified = Digest::verified_sha256(&bytes[..len]);
        assert_eq!(verified, Ok(Digest::sha256(&bytes[..len])), "{len} bytes");
    }
}

#[test]
fn keys_and_digests_are_found_by_their_bytes() {
    let keys: std::collections::HashMap<Key, usize> =
        keys().map(|(bytes, key)| (key, bytes.len())).collect();
    for (bytes, key) in self::keys() {
        assert_eq!(
            (keys.get(&bytes[..]), format!("{key:x}")),
            (Some(&bytes.len()), key.to_string())
        );
    }
    const NINE: Digest = Digest::new([9; 32]);
    let bytes: &[u8; 32] = NINE.as_ref();
    assert!(std::collections::HashSet::from([NINE]).contains(&bytes[..]));
}
