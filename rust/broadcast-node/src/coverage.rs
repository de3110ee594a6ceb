//! Which stamps of an author a relay has had.

use crate::{Error, raw};

/// The stamps after `from`, up to `to`.
#[repr(C)]
#[derive(Clone, Copy, Debug, Default, PartialEq, Eq, Hash)]
#[cfg_attr(feature = "serde", derive(serde::Serialize, serde::Deserialize))]
pub struct Span {
    /// The stamp before the first one.
    pub from: u64,
    /// The last stamp.
    pub to: u64,
}

/// Which stamps of an author a relay has had: all from 1 up to a floor, and those of some spans behind it, which have gaps
/// before and between them. Stamp 0 is never had. The verified library decides.
///
/// ```
/// # fn main() -> Result<(), broadcast_node::Error> {
/// use broadcast_node::{Coverage, Span};
///
/// // The stamps 1 to 5, and a message of the stamp 9, whose author sent 7 before it.
/// let had = Coverage::reported(5, vec![Span { from: 7, to: 9 }])?.expect("the spans are in order");
/// assert!(had.has(9) && had.has(8) && !had.has(7));
/// assert_eq!(had.first_missing(&Coverage::new(9)?, 0, u64::MAX), Some(6));
/// assert_eq!(Coverage::reported(5, vec![Span { from: 5, to: 9 }])?, None); // no gap after 5
/// # Ok(())
/// # }
/// ```
#[derive(Clone, Debug, PartialEq, Eq)]
#[cfg_attr(feature = "serde", derive(serde::Serialize, serde::Deserialize))]
#[cfg_attr(feature = "serde", serde(try_from = "Reported"))]
pub struct Coverage {
    floor: u64,
    spans: Vec<Span>,
}

impl Coverage {
    /// The most spans behind the floor.
    pub const MOST: usize = 63;

    /// Creates the coverage of all stamps from 1 up to `floor`.
    ///
    /// # Errors
    ///
    /// [`Error::Processor`] and [`Error::Version`].
    pub fn new(floor: u64) -> Result<Coverage, Error> {
        raw::is_usable()?;
        Ok(Coverage { floor, spans: Vec::new() })
    }

    /// Creates the coverage that a peer reported. Returns `None` if there are more than [`Coverage::MOST`] spans, if one of
    /// them has no stamp, or if the spans are not in order with gaps before and between them.
    ///
    /// # Errors
    ///
    /// As [`Coverage::new`].
    pub fn reported(floor: u64, spans: Vec<Span>) -> Result<Option<Coverage>, Error> {
        raw::is_usable()?;
        let is_one = raw::coverage_has(floor, &spans, 0)?.is_some();
        Ok(is_one.then_some(Coverage { floor, spans }))
    }

    /// Returns the floor: all stamps from 1 up to it were had.
    pub const fn floor(&self) -> u64 {
        self.floor
    }

    /// Returns the spans behind the floor, in order.
    pub fn spans(&self) -> &[Span] {
        &self.spans
    }

    /// Returns whether the stamp was had. Stamp 0 never was.
    pub fn has(&self, stamp: u64) -> bool {
        raw::coverage_has(self.floor, &self.spans, stamp) == Ok(Some(true))
    }

    /// Returns the least stamp after `above` and up to `upto` that the other coverage has and this one lacks.
    pub fn first_missing(&self, other: &Coverage, above: u64, upto: u64) -> Option<u64> {
        raw::coverage_missing(self, other, above, upto).ok().flatten()
    }
}

/// What is read of a text: a coverage, or not.
#[cfg(feature = "serde")]
#[derive(serde::Deserialize)]
struct Reported {
    floor: u64,
    spans: Vec<Span>,
}

#[cfg(feature = "serde")]
impl TryFrom<Reported> for Coverage {
    type Error = String;

    fn try_from(it: Reported) -> Result<Coverage, String> {
        let read = Coverage::reported(it.floor, it.spans).map_err(|it| it.to_string())?;
        read.ok_or_else(|| {
            format!(
                "a coverage has at most {} spans, in order with gaps between them",
                Coverage::MOST
            )
        })
    }
}
