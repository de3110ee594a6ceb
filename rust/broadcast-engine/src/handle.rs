//! Engines that run in a task of tokio.

use crate::{End, Engine, Id, Message, Provider, Receiver, Sender, Strategy};
use std::fmt;
use std::future::Future;
use std::pin::Pin;
use std::sync::Arc;
use std::task::{Context, Poll};
use tokio::sync::Notify;
use tokio::task::JoinHandle;

pub use tokio::task::JoinError;

impl<P: Id, M: Message, D: Provider<PublicKey = P>, T: Strategy> Engine<P, M, D, T> {
    /// Starts the engine in a task of its own, over a network.
    ///
    /// # Panics
    ///
    /// Panics outside of a tokio runtime.
    pub fn start(
        self,
        network: (impl Sender<PublicKey = P>, impl Receiver<PublicKey = P>),
    ) -> Handle {
        let stopper = Stopper(Arc::new(Notify::new()));
        let stop = stopper.clone();
        let task = tokio::spawn(self.run(network, async move { stop.0.notified().await }));
        Handle { stopper, task }
    }
}

/// Stops an engine. Clones stop the same engine.
#[derive(Clone)]
pub struct Stopper(Arc<Notify>);

impl Stopper {
    /// Ends the engine before its next event.
    pub fn stop(&self) {
        self.0.notify_one();
    }
}

impl fmt::Debug for Stopper {
    fn fmt(&self, f: &mut fmt::Formatter<'_>) -> fmt::Result {
        f.debug_struct("Stopper").finish_non_exhaustive()
    }
}

/// A started engine: a future of its end. If it is dropped, the engine runs on.
pub struct Handle {
    stopper: Stopper,
    task: JoinHandle<End>,
}

impl Handle {
    /// Ends the engine before its next event.
    pub fn stop(&self) {
        self.stopper.stop();
    }

    /// Returns what stops the engine from elsewhere.
    pub fn stopper(&self) -> Stopper {
        self.stopper.clone()
    }

    /// Ends the engine's task where it waits.
    pub fn abort(&self) {
        self.task.abort();
    }

    /// Returns whether the engine has ended.
    pub fn is_finished(&self) -> bool {
        self.task.is_finished()
    }
}

impl fmt::Debug for Handle {
    fn fmt(&self, f: &mut fmt::Formatter<'_>) -> fmt::Result {
        f.debug_struct("Handle").field("is_finished", &self.is_finished()).finish_non_exhaustive()
    }
}

impl Future for Handle {
    type Output = Result<End, JoinError>;

    fn poll(mut self: Pin<&mut Self>, cx: &mut Context<'_>) -> Poll<Self::Output> {
        Pin::new(&mut self.task).poll(cx)
    }
}
