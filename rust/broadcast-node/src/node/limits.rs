//! The bounds of a node.

/// The bounds of a node.
///
/// ```
/// use broadcast_node::Limits;
///
/// let limits = Limits::default().deque_size(100).max_len(4_096);
/// assert_eq!((limits.deque_size, limits.max_len), (100, 4_096));
/// ```
#[derive(Clone, Copy, Debug, PartialEq, Eq, Hash)]
#[cfg_attr(feature = "serde", derive(serde::Serialize, serde::Deserialize), serde(default))]
#[non_exhaustive]
pub struct Limits {
    /// The most digests in the list of a peer.
    pub deque_size: usize,
    /// The most bytes that the list of a peer is charged: for each message its length and 4 more.
    pub byte_budget: u64,
    /// The most bytes of a message, one's own or that of a peer.
    pub max_len: usize,
}

impl Limits {
    /// Sets the most digests in the list of a peer.
    #[must_use]
    pub const fn deque_size(self, deque_size: usize) -> Limits {
        Limits { deque_size, ..self }
    }

    /// Sets the most bytes that the list of a peer is charged.
    #[must_use]
    pub const fn byte_budget(self, byte_budget: u64) -> Limits {
        Limits { byte_budget, ..self }
    }

    /// Sets the most bytes of a message.
    #[must_use]
    pub const fn max_len(self, max_len: usize) -> Limits {
        Limits { max_len, ..self }
    }
}

impl Default for Limits {
    /// 256 digests and 16 MiB a peer, messages of at most 1 MiB.
    fn default() -> Limits {
        Limits { deque_size: 256, byte_budget: 16 << 20, max_len: 1 << 20 }
    }
}
