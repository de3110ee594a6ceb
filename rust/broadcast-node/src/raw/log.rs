//! The owner of a log's handle, with the library's functions as safe calls that return their status.

use super::{LogHandle, OK, heap};
use crate::log::Message;
use crate::{Coverage, Span};
use std::cell::UnsafeCell;
use std::hint::black_box;

/// A full handle, from `new` to the drop.
pub struct OwnedLog {
    // Each call, also one that only reads, wants a `&mut` handle, since the library shares none. It is
    // in a cell so that reads take `&self`: no call calls back, and an owner is not `Sync`, so no two
    // such `&mut` are alive at once.
    handle: UnsafeCell<LogHandle>,
}

// SAFETY: the library proves that a handle may move to another thread (`Send` of its handle), and an
// owner has nothing else.
unsafe impl Send for OwnedLog {}

// SAFETY of all calls below: the handle is full, nothing else uses it during the call, and each
// pointer with its length is that of a slice that is borrowed for the call, as the header asks.
impl OwnedLog {
    pub fn new(budget: u64) -> Result<Self, u32> {
        black_box(heap::addresses());
        let mut handle = LogHandle::EMPTY;
        // SAFETY: the handle is empty, as it is before its first call.
        match unsafe { super::broadcast_log_new(&mut handle, budget) } {
            OK => Ok(OwnedLog { handle: UnsafeCell::new(handle) }),
            status => Err(status),
        }
    }

    /// Sets `needed`, and `arrived` and the front of `left` if the status is OK.
    pub fn arrive(
        &mut self,
        message: &Message,
        latest: u64,
        left: &mut [u64],
        needed: &mut usize,
        arrived: &mut u32,
    ) -> u32 {
        let (log, at, len) = (self.handle.get_mut(), left.as_mut_ptr(), left.len());
        // SAFETY: see above.
        unsafe { super::broadcast_log_arrive(log, message, latest, at, len, needed, arrived) }
    }

    pub fn has(&self, stamp: u64) -> bool {
        // SAFETY: see above, and the field.
        unsafe { super::broadcast_log_has(&mut *self.handle.get(), stamp) == OK }
    }

    pub fn get(&self, index: usize, out: &mut Message) -> u32 {
        // SAFETY: see above, and the field.
        unsafe { super::broadcast_log_get(&mut *self.handle.get(), index, out) }
    }

    pub fn find(&self, stamp: u64, out: &mut Message) -> u32 {
        // SAFETY: see above, and the field.
        unsafe { super::broadcast_log_find(&mut *self.handle.get(), stamp, out) }
    }

    /// Returns the floor, the number of listed messages, and what they are charged. This never fails on a full
    /// handle.
    pub fn count(&self) -> (u64, usize, u64) {
        let (mut floor, mut len, mut bytes) = (0, 0, 0);
        let log = self.handle.get();
        // SAFETY: see above, and the field.
        unsafe { super::broadcast_log_count(&mut *log, &mut floor, &mut len, &mut bytes) };
        (floor, len, bytes)
    }

    /// Sets `needed`, and `floor` and the front of `out` if the status is OK.
    pub fn report(&self, floor: &mut u64, out: &mut [Span], needed: &mut usize) -> u32 {
        let (at, len) = (out.as_mut_ptr(), out.len());
        // SAFETY: see above, and the field.
        unsafe { super::broadcast_log_report(&mut *self.handle.get(), floor, at, len, needed) }
    }

    pub fn next(
        &self,
        reported: &Coverage,
        sent: u64,
        in_flight: &[u64],
        (flying, room): (u64, u64),
        out: &mut Message,
    ) -> u32 {
        let (log, floor, spans) = (self.handle.get(), reported.floor(), reported.spans());
        let (spans, spans_len) = (spans.as_ptr(), spans.len());
        let (at, len) = (in_flight.as_ptr(), in_flight.len());
        // SAFETY: see above, and the field.
        unsafe {
            super::broadcast_log_next(
                &mut *log, floor, spans, spans_len, sent, at, len, flying, room, out,
            )
        }
    }

    pub fn lag(&self, reported: &Coverage, bytes: &mut u64) -> u32 {
        let (log, floor, spans) = (self.handle.get(), reported.floor(), reported.spans());
        // SAFETY: see above, and the field.
        unsafe { super::broadcast_log_lag(&mut *log, floor, spans.as_ptr(), spans.len(), bytes) }
    }
}

impl Drop for OwnedLog {
    fn drop(&mut self) {
        // SAFETY: see above.
        unsafe { super::broadcast_log_free(self.handle.get_mut()) }
    }
}
