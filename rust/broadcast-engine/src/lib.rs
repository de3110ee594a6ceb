//! Broadcasts messages to, and caches messages from, untrusted peers: the interface of
//! `commonware_broadcast::buffered` over the verified cache of [`broadcast_node`], on tokio.
//!
//! ```
//! use broadcast_engine::{Config, Digested, Engine, Fixed, Message, Recipients};
//! use bytes::Bytes;
//! # use broadcast_engine::{Receiver, Sender};
//! #
//! # struct Nowhere;
//! # impl Sender for Nowhere {
//! #     type PublicKey = [u8; 32];
//! #     fn send(&mut self, _: Recipients<[u8; 32]>, _: Bytes, _: bool) {}
//! # }
//! # struct Silence;
//! # impl Receiver for Silence {
//! #     type PublicKey = [u8; 32];
//! #     type Error = ();
//! #     async fn recv(&mut self) -> Result<([u8; 32], Bytes), ()> {
//! #         std::future::pending().await
//! #     }
//! # }
//!
//! /// A message whose digest is its first 32 bytes.
//! struct Block(Bytes);
//!
//! impl Message for Block {
//!     type Digest = [u8; 32];
//!     type Config = ();
//!     type Error = &'static str;
//!
//!     fn encode(&self) -> Bytes {
//!         self.0.clone()
//!     }
//!
//!     fn decode(bytes: Bytes, _: &()) -> Result<Block, &'static str> {
//!         if bytes.len() < 32 { Err("a block has at least 32 bytes") } else { Ok(Block(bytes)) }
//!     }
//!
//!     fn digest(&self) -> [u8; 32] {
//!         self.0[..32].try_into().unwrap()
//!     }
//! }
//!
//! # #[tokio::main(flavor = "current_thread")]
//! # async fn main() -> Result<(), broadcast_engine::Error> {
//! # let (sender, receiver) = (Nowhere, Silence);
//! let (own, other) = ([1; 32], [2; 32]);
//! let (engine, mailbox) = Engine::new(Config::new(own, Fixed::new([own, other]), ()))?;
//! let _handle = engine.start((sender, receiver));
//!
//! let message = Digested::new(Block(Bytes::from_static(&[7; 40])));
//! let digest = message.digest();
//! let subscription = mailbox.subscribe(digest); // dropping it cancels it
//! assert!(mailbox.broadcast(Recipients::All, message).accepted());
//! assert_eq!(subscription.await.unwrap().digest(), digest);
//! assert!(mailbox.get(digest).await.is_some());
//! assert!(mailbox.get([9; 32]).await.is_none());
//! # Ok(())
//! # }
//! ```
//!
//! The program brings a [`Message`], a [`Provider`] of peer sets, and a network of a [`Sender`] and a
//! [`Receiver`], which must know beyond doubt who sent a message. The verified cache decides which messages are
//! kept, for whom and until when. This crate around it is tested.

#![forbid(unsafe_code)]

mod config;
mod deliveries;
mod engine;
#[cfg(feature = "rt")]
mod handle;
mod id;
mod inbox;
mod mailbox;
mod message;
mod metrics;
mod network;
#[cfg(feature = "prometheus")]
mod prometheus;
mod strategy;
mod waiting;

pub use broadcast_node::{Digest, Error, Key, RestoreError, Snapshot};
pub use config::Config;
pub use deliveries::Deliveries;
pub use engine::{End, Engine};
#[cfg(feature = "rt")]
pub use handle::{Handle, JoinError, Stopper};
pub use id::Id;
pub use inbox::Feedback;
pub use mailbox::{Canceled, Mailbox, Subscription};
pub use message::{Digested, Message};
pub use metrics::{ByStatus, Metrics, Stats};
pub use network::{Disconnected, Fixed, Provider, Receiver, Recipients, Sender};
#[cfg(feature = "rt")]
pub use strategy::Blocking;
pub use strategy::{Sequential, Strategy};

/// The README's code is compiled.
#[cfg(doctest)]
#[doc = include_str!("../README.md")]
struct Readme;
