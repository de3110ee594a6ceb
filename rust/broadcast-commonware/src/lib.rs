//! `commonware_broadcast::buffered` over a verified cache: the engine of `broadcast-engine` behind commonware's traits.
//!
//! The feature `registry` turns the adapter on.

#[cfg(feature = "registry")]
mod adapter;

#[cfg(feature = "registry")]
pub use adapter::*;

/// The names of commonware that the adapter uses.
#[cfg(feature = "registry")]
mod cw {
    pub use commonware_actor::Feedback;
    pub use commonware_broadcast::Broadcaster;
    pub use commonware_codec::Codec;
    pub use commonware_cryptography::{Digested, Digestible, PublicKey};
    pub use commonware_p2p::PeerSetSubscription as Updates;
    pub use commonware_p2p::{Provider, Receiver, Recipients, Sender};
    pub use commonware_runtime::IoBuf;
}
