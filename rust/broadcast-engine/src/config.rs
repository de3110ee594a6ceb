//! The configuration of an engine.

use crate::Sequential;
use std::fmt;
use std::num::NonZeroUsize;

/// Configuration of an [`Engine`](crate::Engine).
///
/// ```
/// use broadcast_engine::{Config, Fixed};
///
/// let own = [1; 32];
/// let config = Config::new(own, Fixed::new([own, [2; 32]]), ()).deque_size(100);
/// assert_eq!((config.deque_size, config.byte_budget), (100, 16 << 20));
/// ```
#[derive(Clone)]
#[non_exhaustive]
pub struct Config<P, C, D, T> {
    /// The public key of this node. Its broadcasts are cached while the peer set has this key.
    pub public_key: P,
    /// The number of requests that the mailbox holds before it returns [`Feedback::Backoff`](crate::Feedback).
    pub mailbox_size: NonZeroUsize,
    /// The most messages that are cached for each peer.
    pub deque_size: usize,
    /// The most bytes that are cached for each peer. A message is charged the length of its encoding.
    pub byte_budget: u64,
    /// Whether messages are sent over the network as priority.
    pub priority: bool,
    /// The configuration with which messages are decoded.
    pub codec_config: C,
    /// Provides the primary peers, whose messages are cached.
    pub peer_provider: D,
    /// Where the digests of received messages are computed.
    pub strategy: T,
}

impl<P, C, D> Config<P, C, D, Sequential> {
    /// Creates a configuration with a mailbox of 1,024 requests, 256 messages and 16 MiB for each peer, and no priority.
    pub const fn new(public_key: P, peer_provider: D, codec_config: C) -> Self {
        Config {
            public_key,
            mailbox_size: NonZeroUsize::new(1_024).unwrap(),
            deque_size: 256,
            byte_budget: 16 << 20,
            priority: false,
            codec_config,
            peer_provider,
            strategy: Sequential,
        }
    }
}

impl<P, C, D, T> Config<P, C, D, T> {
    /// Sets the number of requests that the mailbox holds before it returns [`Feedback::Backoff`](crate::Feedback).
    #[must_use]
    pub fn mailbox_size(self, mailbox_size: NonZeroUsize) -> Self {
        Config { mailbox_size, ..self }
    }

    /// Sets the most messages that are cached for each peer.
    #[must_use]
    pub fn deque_size(self, deque_size: usize) -> Self {
        Config { deque_size, ..self }
    }

    /// Sets the most bytes that are cached for each peer.
    #[must_use]
    pub fn byte_budget(self, byte_budget: u64) -> Self {
        Config { byte_budget, ..self }
    }

    /// Sets whether messages are sent over the network as priority.
    #[must_use]
    pub fn priority(self, priority: bool) -> Self {
        Config { priority, ..self }
    }

    /// Sets where the digests of received messages are computed.
    #[must_use]
    pub fn strategy<S>(self, strategy: S) -> Config<P, C, D, S> {
        Config {
            public_key: self.public_key,
            mailbox_size: self.mailbox_size,
            deque_size: self.deque_size,
            byte_budget: self.byte_budget,
            priority: self.priority,
            codec_config: self.codec_config,
            peer_provider: self.peer_provider,
            strategy,
        }
    }
}

impl<P, C, D, T> fmt::Debug for Config<P, C, D, T> {
    fn fmt(&self, f: &mut fmt::Formatter<'_>) -> fmt::Result {
        f.debug_struct("Config")
            .field("mailbox_size", &self.mailbox_size)
            .field("deque_size", &self.deque_size)
            .field("byte_budget", &self.byte_budget)
            .field("priority", &self.priority)
            .finish_non_exhaustive()
    }
}
