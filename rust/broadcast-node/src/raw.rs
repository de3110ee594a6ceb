//! The functions of the static library as `ffi/broadcast_c.h` declares them, each as a safe call, and the functions
//! by which the library asks for memory. All unsafe code of this crate is here.

mod coverage;
mod heap;
mod log;
mod store;

pub use coverage::{coverage_has, coverage_missing};
pub use log::OwnedLog;
#[cfg(not(feature = "recorder"))]
pub use store::Store;

/// With the feature `recorder` the calls of each store are noted.
#[cfg(feature = "recorder")]
pub(crate) use {crate::recorder::Store, store::Store as PlainStore};

use crate::log::Message;
use crate::{Bucket, Counters, Digest, Error, Invalid, Key, Outcome, Span, Ticket};
use std::ffi::c_void;
use std::ops::Range;
use std::ptr::null_mut;

/// The version of the library's functions that this crate was written for.
pub const VERSION: u32 = 9;

pub const OK: u32 = 0;
pub const MEMORY: u32 = 1;
pub const NONE: u32 = 3;
pub const SHORT: u32 = 4;
pub const WAITS: u32 = 5;
pub const INVALID_LENGTH: u32 = 8;
pub const EXTRA_DATA: u32 = 9;
pub const NO_COVERAGE: u32 = 10;

pub const INSERTED: u32 = 0;
pub const DUPLICATE: u32 = 1;
pub const INELIGIBLE: u32 = 2;
pub const OVERSIZE: u32 = 3;
pub const INVALID: u32 = 4;

pub const LISTED: u32 = 0;
pub const PASSED: u32 = 1;
pub const REFUSED: u32 = 2;
pub const ABOVE_BUDGET: u32 = 3;
pub const UNTIMELY: u32 = 4;

/// The handle of a store. It owns what `at` leads to if it is `full`, and nothing else.
#[repr(C)]
pub struct StoreHandle {
    at: *mut c_void,
    full: bool,
}

impl StoreHandle {
    const EMPTY: StoreHandle = StoreHandle { at: null_mut(), full: false };
}

/// The handle of a log. It owns what `at` leads to if it is `full`, and nothing else.
#[repr(C)]
pub struct LogHandle {
    at: *mut c_void,
    full: bool,
}

impl LogHandle {
    const EMPTY: LogHandle = LogHandle { at: null_mut(), full: false };
}

/// What became of a message.
#[repr(C)]
#[derive(Default)]
pub struct Stored {
    pub outcome: u32,
    pub kept: bool,
    pub served: usize,
    pub cached: usize,
    pub left: usize,
}

#[repr(C)]
#[derive(Default)]
pub struct Counts {
    pub cached: usize,
    pub awaited: usize,
}

/// Where the message of a packet is.
#[repr(C)]
#[derive(Default)]
pub struct Place {
    pub offset: usize,
    pub length: usize,
}

#[rustfmt::skip] // It would put each parameter on a line.
unsafe extern "C" {
    pub safe fn broadcast_c_version() -> u32;
    pub safe fn broadcast_counters_count(counters: &mut Counters, what: u32);
    pub safe fn broadcast_counters_add(counters: &mut Counters, more: &Counters);
    fn broadcast_sha256(bytes: *const u8, len: usize, out: &mut Digest);
    fn broadcast_packet_read(bytes: *const u8, len: usize, max_len: usize, out: &mut Place) -> u32;
    pub safe fn broadcast_packet_head(len: usize, out: &mut [u8; 4]) -> u32;
    fn broadcast_coverage_has(floor: u64, spans: *const Span, len: usize, stamp: u64) -> u32;
    fn broadcast_coverage_missing(floor: u64, spans: *const Span, len: usize, other_floor: u64,
        others: *const Span, others_len: usize, above: u64, upto: u64, stamp: &mut u64) -> u32;
    fn broadcast_log_new(log: &mut LogHandle, budget: u64) -> u32;
    fn broadcast_log_free(log: &mut LogHandle);
    fn broadcast_log_arrive(log: &mut LogHandle, message: &Message, latest: u64, left: *mut u64,
        left_len: usize, needed: &mut usize, arrived: &mut u32) -> u32;
    fn broadcast_log_has(log: &mut LogHandle, stamp: u64) -> u32;
    fn broadcast_log_get(log: &mut LogHandle, index: usize, out: &mut Message) -> u32;
    fn broadcast_log_find(log: &mut LogHandle, stamp: u64, out: &mut Message) -> u32;
    fn broadcast_log_count(log: &mut LogHandle, floor: &mut u64, len: &mut usize,
        bytes: &mut u64) -> u32;
    fn broadcast_log_report(log: &mut LogHandle, floor: &mut u64, out: *mut Span, out_len: usize,
        needed: &mut usize) -> u32;
    fn broadcast_log_next(log: &mut LogHandle, floor: u64, spans: *const Span, spans_len: usize,
        sent: u64, in_flight: *const u64, in_flight_len: usize, flying: u64, room: u64,
        out: &mut Message) -> u32;
    fn broadcast_log_lag(log: &mut LogHandle, floor: u64, spans: *const Span, spans_len: usize,
        bytes: &mut u64) -> u32;
    pub safe fn broadcast_bucket_level(bucket: &Bucket, now: u64) -> u64;
    pub safe fn broadcast_bucket_charge(bucket: &mut Bucket, now: u64, cost: u64);
    pub safe fn broadcast_bucket_ready(bucket: &Bucket, now: u64, cost: u64, at: &mut u64) -> u32;
    fn broadcast_store_new(store: &mut StoreHandle, own: &Key, deque_size: usize,
        byte_budget: u64) -> u32;
    fn broadcast_store_free(store: &mut StoreHandle);
    fn broadcast_store_peers(store: &mut StoreHandle, names: *const Key, len: usize) -> u32;
    fn broadcast_store_take(store: &mut StoreHandle, peer: &Key, digest: &Digest, charge: usize,
        handle: u64, out: &mut Stored) -> u32;
    fn broadcast_store_receive(store: &mut StoreHandle, peer: &Key, digest: &Digest, charge: usize,
        handle: u64, counters: &mut Counters, out: &mut Stored) -> u32;
    fn broadcast_store_served(store: &mut StoreHandle, out: *mut Ticket, len: usize,
        needed: &mut usize) -> u32;
    fn broadcast_store_left(store: &mut StoreHandle, out: *mut u64, len: usize,
        moved: &mut usize) -> u32;
    fn broadcast_store_get(store: &mut StoreHandle, digest: &Digest, handle: &mut u64) -> u32;
    fn broadcast_store_subscribe(store: &mut StoreHandle, ticket: u64, digest: &Digest) -> u32;
    fn broadcast_store_cleanup(store: &mut StoreHandle, tickets: *const Ticket, len: usize,
        removed: &mut u64) -> u32;
    fn broadcast_store_cleanup_of(store: &mut StoreHandle, digest: &Digest, tickets: *const Ticket,
        len: usize, removed: &mut u64) -> u32;
    fn broadcast_store_is_primary(store: &mut StoreHandle, peer: &Key, out: &mut bool) -> u32;
    fn broadcast_store_bytes(store: &mut StoreHandle, peer: &Key, out: &mut u64) -> u32;
    fn broadcast_store_list(store: &mut StoreHandle, peer: &Key, out: *mut Digest, len: usize,
        needed: &mut usize) -> u32;
    fn broadcast_store_count(store: &mut StoreHandle, out: &mut Counts) -> u32;
}

/// Checks the processor, then the version: the library's functions are for x86-64-v2.
pub fn is_usable() -> Result<(), Error> {
    #[cfg(target_arch = "x86_64")]
    if !(is_x86_feature_detected!("sse4.2") && is_x86_feature_detected!("popcnt")) {
        return Err(Error::Processor);
    }
    match broadcast_c_version() {
        VERSION => Ok(()),
        other => Err(Error::Version(other)),
    }
}

/// Returns the error of a status that is not one of those that the call expects.
pub const fn error(status: u32) -> Error {
    match status {
        MEMORY => Error::Memory,
        other => Error::Status(other),
    }
}

const fn done(status: u32) -> Result<(), Error> {
    match status {
        OK => Ok(()),
        other => Err(error(other)),
    }
}

/// Returns what a call set if it found it.
const fn found<T: Copy>(status: u32, set: T) -> Result<Option<T>, Error> {
    match status {
        OK => Ok(Some(set)),
        NONE => Ok(None),
        other => Err(error(other)),
    }
}

impl Stored {
    /// Returns the outcome. An error says that the library is not the verified one.
    #[inline]
    pub const fn outcome(&self) -> Result<Outcome, Error> {
        match self.outcome {
            INSERTED => Ok(Outcome::Inserted),
            DUPLICATE => Ok(Outcome::Duplicate),
            INELIGIBLE => Ok(Outcome::Ineligible),
            OVERSIZE => Ok(Outcome::Oversize),
            other => Err(Error::Status(other)),
        }
    }
}

/// Returns the code of an outcome.
pub const fn code(outcome: Outcome) -> u32 {
    match outcome {
        Outcome::Inserted => INSERTED,
        Outcome::Duplicate => DUPLICATE,
        Outcome::Ineligible => INELIGIBLE,
        Outcome::Oversize => OVERSIZE,
    }
}

/// Computes the SHA-256 of the bytes.
pub fn sha256(bytes: &[u8]) -> Result<Digest, Error> {
    is_usable()?;
    let mut out = Digest::default();
    // SAFETY: the pointer and the length are those of a slice that is borrowed for the call.
    unsafe { broadcast_sha256(bytes.as_ptr(), bytes.len(), &mut out) };
    Ok(out)
}

/// Returns where the message of a packet is, if it has at most `max_len` bytes.
pub fn packet_read(bytes: &[u8], max_len: usize) -> Result<Range<usize>, Invalid> {
    let mut out = Place::default();
    // SAFETY: the pointer and the length are those of a slice that is borrowed for the call.
    let status = unsafe { broadcast_packet_read(bytes.as_ptr(), bytes.len(), max_len, &mut out) };
    match status {
        OK => Ok(out.offset..out.offset + out.length),
        INVALID_LENGTH => Err(Invalid::InvalidLength(out.length)),
        EXTRA_DATA => Err(Invalid::ExtraData(out.length)),
        _ => Err(Invalid::EndOfBuffer),
    }
}

/// Returns what stands in front of a message of `len` bytes.
pub fn packet_head(len: usize) -> Option<[u8; 4]> {
    let mut out = [0; 4];
    (broadcast_packet_head(len, &mut out) == OK).then_some(out)
}

/// Returns the first time from `now` on at which the bucket has `cost` tokens.
pub fn bucket_ready(bucket: &Bucket, now: u64, cost: u64) -> Option<u64> {
    let mut at = 0;
    (broadcast_bucket_ready(bucket, now, cost, &mut at) == OK).then_some(at)
}
