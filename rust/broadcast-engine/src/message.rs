//! Messages.

use crate::Id;
use crate::id::Hex;
use broadcast_node::Digest;
use bytes::Bytes;
use std::fmt::{self, Debug};
use std::ops::Deref;
use std::sync::Arc;

/// A message that encodes itself and has a digest of its own.
pub trait Message: Send + Sync + Sized + 'static {
    /// The name of a message. A subscriber to it gets the message, so no two messages should share one.
    type Digest: Id;
    /// What a message is decoded with, for example a bound on its length.
    type Config: Send + Sync + 'static;
    /// Why bytes are not a message.
    type Error: Debug;

    /// Returns the bytes that another node decodes.
    fn encode(&self) -> Bytes;

    /// Reads a message that has all of `bytes`.
    ///
    /// Any peer may have chosen the bytes. A panic ends the engine.
    ///
    /// # Errors
    ///
    /// Fails if the bytes are no message. The engine counts them, and drops them.
    fn decode(bytes: Bytes, config: &Self::Config) -> Result<Self, Self::Error>;

    /// Reads a message as [`decode`](Message::decode) does, and returns its digest too if that is known afterwards. By
    /// default it is not, and the engine's [`Strategy`](crate::Strategy) computes it by [`digest`](Message::digest).
    ///
    /// A message whose digest is the hash of its encoding computes it here, in the engine's own task, and need not be
    /// encoded again. The digest must be that of the message: whoever awaits it gets the message.
    ///
    /// # Errors
    ///
    /// Those of `decode`.
    fn decode_digested(
        bytes: Bytes,
        config: &Self::Config,
    ) -> Result<(Self, Option<Self::Digest>), Self::Error> {
        Ok((Self::decode(bytes, config)?, None))
    }

    /// Returns the digest.
    fn digest(&self) -> Self::Digest;

    /// Returns the 32 bytes by which the cache knows a digest. No two digests may have the same: whoever awaits one
    /// would get the message of the other.
    ///
    /// By default a `[u8; 32]` or a [`Digest`] stands for itself, and each value of any other type for its SHA-256. A
    /// type of one's own whose values all have 32 bytes spares the hash:
    ///
    /// ```
    /// # use broadcast_engine::{Digest, Message};
    /// # #[derive(Clone, PartialEq, Eq, PartialOrd, Ord, Hash)]
    /// struct BlockId([u8; 32]);
    /// # impl AsRef<[u8]> for BlockId {
    /// #     fn as_ref(&self) -> &[u8] {
    /// #         &self.0
    /// #     }
    /// # }
    /// # struct Block;
    /// # impl Message for Block {
    /// #     type Digest = BlockId;
    /// #     type Config = ();
    /// #     type Error = ();
    /// #     fn encode(&self) -> bytes::Bytes {
    /// #         bytes::Bytes::new()
    /// #     }
    /// #     fn decode(_: bytes::Bytes, (): &()) -> Result<Block, ()> {
    /// #         Ok(Block)
    /// #     }
    /// #     fn digest(&self) -> BlockId {
    /// #         BlockId([7; 32])
    /// #     }
    ///
    /// // in `impl Message for Block`, where `type Digest = BlockId`
    /// fn name_of(digest: &BlockId) -> Digest {
    ///     Digest::new(digest.0)
    /// }
    /// # }
    /// ```
    fn name_of(digest: &Self::Digest) -> Digest {
        crate::id::digest(digest)
    }
}

/// A message and its digest, which was computed once. Clones share the message.
pub struct Digested<M: Message> {
    digest: M::Digest,
    message: Arc<M>,
}

impl<M: Message> Digested<M> {
    /// Computes the digest of a message.
    pub fn new(message: M) -> Self {
        Digested { digest: message.digest(), message: Arc::new(message) }
    }

    /// Creates a digested message of a digest that may not be the message's own.
    pub fn precomputed(message: M, digest: M::Digest) -> Self {
        Digested { digest, message: Arc::new(message) }
    }

    /// Does the same for a message that is shared already.
    pub const fn precomputed_shared(message: Arc<M>, digest: M::Digest) -> Self {
        Digested { digest, message }
    }

    /// Returns the digest.
    pub fn digest(&self) -> M::Digest {
        self.digest.clone()
    }

    /// Returns the digest by which the cache knows the message.
    pub(crate) fn name(&self) -> Digest {
        M::name_of(&self.digest)
    }

    /// Returns the message.
    pub fn inner(&self) -> &M {
        &self.message
    }

    /// Returns the message, shared.
    pub fn inner_shared(&self) -> Arc<M> {
        self.message.clone()
    }
}

impl<M: Message> From<M> for Digested<M> {
    fn from(message: M) -> Self {
        Digested::new(message)
    }
}

impl<M: Message> Clone for Digested<M> {
    fn clone(&self) -> Self {
        Digested { digest: self.digest.clone(), message: self.message.clone() }
    }
}

impl<M: Message> Deref for Digested<M> {
    type Target = M;

    fn deref(&self) -> &M {
        &self.message
    }
}

impl<M: Message + PartialEq> PartialEq for Digested<M> {
    fn eq(&self, other: &Self) -> bool {
        self.digest == other.digest && self.message == other.message
    }
}

impl<M: Message> Debug for Digested<M> {
    fn fmt(&self, f: &mut fmt::Formatter<'_>) -> fmt::Result {
        write!(f, "Digested({})", Hex(self.digest.as_ref()))
    }
}
