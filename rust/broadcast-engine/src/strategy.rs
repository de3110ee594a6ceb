//! Where digests are computed.

use crate::{Digested, Message};
use std::future::{Future, ready};

/// Computes the digests of received messages. While one is computed, the engine does nothing else but look for a stop.
pub trait Strategy: Send + Sync + 'static {
    /// Computes the digest of a message.
    fn digest<M: Message>(&self, message: M) -> impl Future<Output = Digested<M>> + Send;
}

/// Computes digests in the engine's own task: right for short messages.
#[derive(Clone, Copy, Debug, Default)]
pub struct Sequential;

impl Strategy for Sequential {
    fn digest<M: Message>(&self, message: M) -> impl Future<Output = Digested<M>> + Send {
        ready(Digested::new(message))
    }
}

/// Computes digests on tokio's pool for blocking work, so that a long message holds up no other task.
#[cfg(feature = "rt")]
#[derive(Clone, Copy, Debug, Default)]
pub struct Blocking;

#[cfg(feature = "rt")]
impl Strategy for Blocking {
    async fn digest<M: Message>(&self, message: M) -> Digested<M> {
        match tokio::task::spawn_blocking(|| Digested::new(message)).await {
            Ok(digested) => digested,
            Err(failed) if failed.is_panic() => std::panic::resume_unwind(failed.into_panic()),
            // The runtime shuts down, and drops this task too.
            Err(_) => std::future::pending().await,
        }
    }
}
