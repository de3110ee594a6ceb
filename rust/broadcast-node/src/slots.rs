//! The messages of a cache, each at the place that is its number. The store knows a message by this number, and reports
//! which ones it evicted.

use crate::taken::Evicted;
use crate::{Digest, Error};

/// A message, and what it was charged when it came.
pub struct Slot<M> {
    pub digest: Digest,
    pub charge: usize,
    pub message: M,
}

/// The messages, and the places that have none.
pub struct Slots<M> {
    places: Vec<Option<Slot<M>>>,
    /// The numbers of the free places, with room for those of all places.
    free: Vec<u64>,
    /// The sum of the charges.
    bytes: u128,
}

/// The most places that an empty cache keeps.
const SPARE: usize = 1_024;

impl<M> Slots<M> {
    pub const fn new() -> Slots<M> {
        Slots { places: Vec::new(), free: Vec::new(), bytes: 0 }
    }

    /// Returns slots with these messages, each at its place.
    pub fn filled(messages: impl ExactSizeIterator<Item = Slot<M>>) -> Result<Slots<M>, Error> {
        let mut slots = Slots::new();
        slots.places.try_reserve_exact(messages.len())?;
        slots.free.try_reserve_exact(messages.len())?;
        for slot in messages {
            slots.bytes += slot.charge as u128;
            slots.places.push(Some(slot));
        }
        Ok(slots)
    }

    /// Makes room for one more message. Returns its number.
    #[inline(always)]
    pub fn vacant(&mut self) -> Result<u64, Error> {
        if self.places.len() > SPARE && self.free.len() == self.places.len() {
            self.clear();
        }
        match self.free.last() {
            Some(number) => Ok(*number),
            None => self.grow(),
        }
    }

    /// Gives the room of all places back. None is taken.
    #[cold]
    fn clear(&mut self) {
        *self = Slots::new();
    }

    /// Adds a free place to those that are all taken. Returns its number.
    #[cold]
    fn grow(&mut self) -> Result<u64, Error> {
        let number = self.places.len() as u64;
        self.places.try_reserve(1)?;
        self.free.try_reserve(self.places.len() + 1)?;
        self.places.push(None);
        self.free.push(number);
        Ok(number)
    }

    /// Frees the places of evicted messages, at most `most`. `fill` writes their numbers, the newest first, and returns how
    /// many they are; this returns that number. `put` or `evicted` returns the messages.
    pub fn release(
        &mut self,
        most: usize,
        fill: impl FnOnce(&mut [u64]) -> usize,
    ) -> Result<usize, Error> {
        let start = self.free.len();
        self.free.try_reserve(most)?; // there is room already
        self.free.resize(start + most, 0);
        let left = fill(&mut self.free[start..]);
        self.free.truncate(start + left);
        for number in &self.free[start..] {
            let slot = self.places.get(*number as usize).and_then(Option::as_ref);
            self.bytes -= slot.map_or(0, |it| it.charge as u128);
        }
        Ok(left)
    }

    /// Frees the places of all evicted messages, as `release` does.
    pub fn release_all(&mut self, fill: impl FnOnce(&mut [u64]) -> usize) -> Result<usize, Error> {
        self.release(self.places.len() - self.free.len(), fill)
    }

    /// Puts a message at the place that `vacant` returned. Returns the message, and the `left` ones whose places were freed
    /// last.
    #[inline]
    pub fn put(&mut self, slot: Slot<M>, left: usize) -> (&M, Evicted<'_, M>) {
        let start = self.free.len() - left;
        let number = self.free.remove(start - 1) as usize;
        self.bytes += slot.charge as u128;
        let (before, rest) = self.places.split_at_mut(number);
        let (place, after) = rest.split_first_mut().expect("`vacant` returned its number");
        let message = &place.insert(slot).message;
        (message, Evicted::new(&self.free[start - 1..], before, after))
    }

    /// Returns the `left` messages whose places were freed last.
    #[inline]
    pub fn evicted(&mut self, left: usize) -> Evicted<'_, M> {
        let start = self.free.len() - left;
        Evicted::new(&self.free[start..], &mut self.places, &mut [])
    }

    /// Returns the message of the number.
    #[inline]
    pub fn get(&self, number: u64) -> Option<&Slot<M>> {
        self.places.get(usize::try_from(number).ok()?)?.as_ref()
    }

    /// Returns the messages with their numbers, in any order. Evicted ones are among them if `has_left`.
    pub fn iter(&self) -> impl Iterator<Item = (u64, &Slot<M>)> {
        (0..).zip(&self.places).filter_map(|(number, it)| Some((number, it.as_ref()?)))
    }

    /// Returns whether evicted messages are here still, because their `Evicted` was forgotten.
    pub fn has_left(&self) -> bool {
        self.free.iter().any(|it| self.get(*it).is_some())
    }

    /// Returns the sum of the charges.
    pub const fn bytes(&self) -> u128 {
        self.bytes
    }
}

#[cfg(test)]
mod tests {
    use super::*;

    #[test]
    fn the_room_of_many_messages_is_given_back() {
        let mut slots = Slots::new();
        for number in 0..5_000 {
            assert_eq!(slots.vacant(), Ok(number));
            let slot = Slot { digest: Digest::default(), charge: 1, message: number };
            assert_eq!(slots.put(slot, 0).0, &number);
        }
        assert_eq!((slots.iter().count(), slots.bytes()), (5_000, 5_000));
        let all = |room: &mut [u64]| {
            room.iter_mut().rev().zip(0..).for_each(|(it, number)| *it = number);
            room.len()
        };
        assert_eq!(slots.release_all(all), Ok(5_000));
        assert!(slots.evicted(5_000).map(|it| it.1).eq(0..5_000));
        assert_eq!((slots.iter().count(), slots.bytes()), (0, 0));
        assert_eq!(slots.vacant(), Ok(0));
        assert!(slots.places.capacity() < SPARE && slots.free.capacity() < SPARE);
    }
}
