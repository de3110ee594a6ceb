//! What a rate allows.

use crate::{Error, raw};

/// A bucket of tokens, which holds at most `burst` of them and gains `rate` a second. It may be overdrawn: what it gains
/// then pays the debt first. Nothing is lost by rounding. The verified library decides.
///
/// A caller that charges only while the level is above 0 spends in any period at most `burst`, `rate` for the period, and
/// one charge. Times are nanoseconds of a clock that does not run backwards.
///
/// ```
/// # fn main() -> Result<(), broadcast_node::Error> {
/// use broadcast_node::Bucket;
///
/// const SECOND: u64 = 1_000_000_000;
/// let mut bucket = Bucket::new(4, 10, 0)?; // 10 tokens at once, and 4 a second
/// bucket.charge(0, 12); // 2 are owed
/// assert_eq!(bucket.level(0), 0);
/// assert_eq!(bucket.ready(0, 1), Some(SECOND * 3 / 4));
/// assert_eq!(bucket.level(SECOND), 2);
/// # Ok(())
/// # }
/// ```
#[repr(C)]
#[derive(Clone, Debug, PartialEq, Eq)]
pub struct Bucket {
    rate: u64,
    burst: u64,
    at: u64,
    low: u64,
    high: u64,
}

impl Bucket {
    /// Creates a full bucket.
    ///
    /// # Errors
    ///
    /// [`Error::Processor`] and [`Error::Version`].
    pub fn new(rate: u64, burst: u64, now: u64) -> Result<Bucket, Error> {
        raw::is_usable()?;
        Ok(Bucket { rate, burst, at: now, low: 0, high: 0 })
    }

    /// Returns the whole tokens that the bucket has: 0 while it is overdrawn.
    #[inline]
    pub fn level(&self, now: u64) -> u64 {
        raw::broadcast_bucket_level(self, now)
    }

    /// Charges `cost` tokens, also if the bucket does not have them. Beyond 2^128 billionths a debt grows no more.
    #[inline]
    pub fn charge(&mut self, now: u64, cost: u64) {
        raw::broadcast_bucket_charge(self, now, cost);
    }

    /// Returns the first time from `now` on at which the bucket has `cost` tokens, if none are charged meanwhile. Returns
    /// `None` if there is no such time, or it has no number.
    pub fn ready(&self, now: u64, cost: u64) -> Option<u64> {
        raw::bucket_ready(self, now, cost)
    }
}
