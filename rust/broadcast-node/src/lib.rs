//! A node that broadcasts messages, without input and output, and the cache in which it keeps them. A static
//! library that is proved in Rattle decides for both.
//!
//! A message goes by a digest of 32 bytes, and a peer by a key of at most 64. For each primary key the cache
//! lists the newest digests received from it, up to a number of digests and a number of bytes, and keeps the
//! messages that are on some list, each once. Callers ask for a digest, or wait for one that is not there
//! yet.
//!
//! - A [`Cache`] has messages of any type.
//! - A [`Node`] has messages of bytes. It encodes, decodes and digests them, and counts what its peers send.
//! - A [`log::AuthorLog`] keeps the newest messages of an author, for a relay.
//! - A [`Coverage`] says which stamps of an author a relay has had.
//! - A [`Bucket`] says what a rate allows.
//!
//! ```
//! use broadcast_node::{Key, Limits, Node, Received, Recipients};
//!
//! # fn main() -> Result<(), broadcast_node::Error> {
//! let (here, there) = (Key::from([1; 32]), Key::from([2; 32]));
//! let mut sender = Node::<Vec<u8>>::new(here, Limits::default())?;
//! let mut receiver = Node::<Vec<u8>>::new(there, Limits::default())?;
//! sender.update_primary_peers(&[here, there])?;
//! receiver.update_primary_peers(&[here, there])?;
//!
//! let sent = sender.broadcast(Recipients::All, b"hello")?;
//! let (digest, payload) = (sent.digest, sent.payload().clone()); // the bytes that the network carries
//! let _ = receiver.payload(&here, payload)?; // nobody waits for a reply
//! assert_eq!(receiver.get(&digest), Some(&b"hello"[..]));
//! # Ok(())
//! # }
//! ```
//!
//! No call panics. A call that fails has changed nothing.
//!
//! Both may move to another thread, and are used by one thread at a time:
//!
//! ```
//! fn sent<T: Send>() {}
//! sent::<broadcast_node::Cache<String>>();
//! sent::<broadcast_node::Node<Vec<u8>>>();
//! ```
//!
//! ```compile_fail,E0277
//! fn shared<T: Sync>() {}
//! shared::<broadcast_node::Cache<String>>();
//! ```
//!
//! # The library
//!
//! A program links `libbroadcast_c.a`, which this crate has for some targets. `BROADCAST_C_LIB` names the folder of another
//! one. Where there is none, the build fails; a documentation is built without it where `DOCS_RS` is set.

mod bucket;
mod cache;
mod coverage;
#[cfg(feature = "serde")]
mod de;
mod error;
mod key;
pub mod log;
mod node;
#[allow(unsafe_code, reason = "it calls the library")]
mod raw;
#[cfg(feature = "recorder")]
pub mod recorder;
mod slots;
mod snapshot;
mod taken;
mod tickets;

pub use bucket::Bucket;
pub use cache::Cache;
pub use coverage::{Coverage, Span};
pub use error::{Error, Refused};
pub use key::{Digest, Key, ParseError};
pub use node::{Broadcast, Counters, Invalid, Limits, Message, Node, Received, Recipients};
pub use snapshot::{RestoreError, Snapshot};
pub use taken::{Evicted, Held, Subscribed, Taken};
pub use tickets::Ticket;

/// A node whose messages are [`bytes::Bytes`].
#[cfg(feature = "bytes")]
pub type BytesNode = Node<bytes::Bytes>;

/// What happened to the list of a key when a message was taken under it.
#[derive(Clone, Copy, Debug, PartialEq, Eq, PartialOrd, Ord, Hash)]
#[cfg_attr(feature = "serde", derive(serde::Serialize, serde::Deserialize))]
#[non_exhaustive]
pub enum Outcome {
    /// The digest was not on the list, and was put in front of it.
    Inserted,
    /// The digest was on the list, and was moved to its front.
    Duplicate,
    /// The key is not primary. No list changed.
    Ineligible,
    /// The message is charged more than the byte budget. No list changed.
    Oversize,
}

/// How much a cache has.
#[derive(Clone, Copy, Debug, Default, PartialEq, Eq, Hash)]
#[cfg_attr(feature = "serde", derive(serde::Serialize, serde::Deserialize), serde(default))]
#[non_exhaustive]
pub struct Counts {
    /// Cached messages.
    pub cached: usize,
    /// Digests that have waiters.
    pub awaited: usize,
    /// Tickets that wait.
    pub waiting: usize,
}

/// The README's code is compiled.
#[cfg(doctest)]
#[doc = include_str!("../README.md")]
struct Readme;
