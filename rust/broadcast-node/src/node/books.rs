//! What each peer's payloads were.

use crate::{Error, Key, Outcome, raw};
use std::collections::HashMap;

/// How many payloads were what. Each number stops at `u64::MAX`. The library counts.
#[repr(C)]
#[derive(Clone, Copy, Debug, Default, PartialEq, Eq, Hash)]
#[cfg_attr(feature = "serde", derive(serde::Serialize, serde::Deserialize), serde(default))]
#[non_exhaustive]
pub struct Counters {
    /// Taken, and put in front of the list.
    pub inserted: u64,
    /// Taken, and moved to the front of the list.
    pub duplicate: u64,
    /// Decoded, but not kept: the key was not primary.
    pub ineligible: u64,
    /// Decoded, but not kept: above the byte budget.
    pub oversize: u64,
    /// Not decoded.
    pub invalid: u64,
}

/// What a payload is counted as.
pub enum Counted {
    Outcome(Outcome),
    Invalid,
}

impl Counters {
    pub(super) fn count(&mut self, what: Counted) {
        let code = match what {
            Counted::Outcome(outcome) => raw::code(outcome),
            Counted::Invalid => raw::INVALID,
        };
        raw::broadcast_counters_count(self, code);
    }

    fn add(&mut self, more: &Counters) {
        raw::broadcast_counters_add(self, more);
    }
}

/// The counters of the primary keys, and those of all others together. So they take no more room than the
/// set of primary keys, whoever sends.
#[derive(Default)]
pub struct Books {
    each: HashMap<Key, Counters>,
    others: Counters,
}

impl Books {
    /// The books for another set of primary keys.
    pub fn for_keys(&self, keys: &[Key]) -> Result<Books, Error> {
        let mut each = HashMap::new();
        each.try_reserve(keys.len())?;
        each.extend(keys.iter().map(|key| (*key, self.of(key))));
        let mut others = self.others;
        for (_, counters) in self.each.iter().filter(|it| !each.contains_key(it.0)) {
            others.add(counters);
        }
        Ok(Books { each, others })
    }

    pub fn of(&self, peer: &Key) -> Counters {
        self.each.get(peer).copied().unwrap_or_default()
    }

    /// The counters of a primary key, else those of all others. Also returns whether they are the key's own.
    pub fn of_mut(&mut self, peer: &Key) -> (&mut Counters, bool) {
        match self.each.get_mut(peer) {
            Some(counters) => (counters, true),
            None => (&mut self.others, false),
        }
    }

    pub fn others(&self) -> Counters {
        self.others
    }
}

#[cfg(test)]
mod tests {
    use super::*;

    #[test]
    fn numbers_stop_at_the_greatest() -> Result<(), Error> {
        let (one, other) = (Key::from([1]), Key::from([2]));
        let mut books = Books::default().for_keys(&[one, other])?;
        for key in [one, other] {
            let (counters, is_own) = books.of_mut(&key);
            assert!(is_own);
            counters.inserted = u64::MAX - 1;
            counters.invalid = 7;
            counters.count(Counted::Outcome(Outcome::Inserted));
            counters.count(Counted::Outcome(Outcome::Inserted));
        }
        assert_eq!(books.of(&one).inserted, u64::MAX);
        let mut books = books.for_keys(&[one])?.for_keys(&[])?;
        assert_eq!((books.others().inserted, books.others().invalid), (u64::MAX, 14));
        assert_eq!(books.of(&one), Counters::default());
        assert!(!books.of_mut(&one).1);
        Ok(())
    }
}
