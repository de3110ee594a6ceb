//! Which stamps a coverage has, and what another one has beside it.

use super::{NO_COVERAGE, NONE, OK, error, found};
use crate::{Coverage, Error, Span};

/// Returns whether a coverage has the stamp, or `None` if it is no coverage.
pub fn coverage_has(floor: u64, spans: &[Span], stamp: u64) -> Result<Option<bool>, Error> {
    // SAFETY: the pointer and the length are those of a slice that is borrowed for the call.
    match unsafe { super::broadcast_coverage_has(floor, spans.as_ptr(), spans.len(), stamp) } {
        OK => Ok(Some(true)),
        NONE => Ok(Some(false)),
        NO_COVERAGE => Ok(None),
        status => Err(error(status)),
    }
}

/// Returns the least stamp after `above` and up to `upto` that the other coverage has and `had` lacks.
pub fn coverage_missing(
    had: &Coverage,
    other: &Coverage,
    above: u64,
    upto: u64,
) -> Result<Option<u64>, Error> {
    let (spans, others, mut stamp) = (had.spans(), other.spans(), 0);
    // SAFETY: the pointers and the lengths are those of two slices that are borrowed for the call.
    let status = unsafe {
        super::broadcast_coverage_missing(
            had.floor(),
            spans.as_ptr(),
            spans.len(),
            other.floor(),
            others.as_ptr(),
            others.len(),
            above,
            upto,
            &mut stamp,
        )
    };
    found(status, stamp)
}
