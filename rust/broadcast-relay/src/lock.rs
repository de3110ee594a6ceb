//! A mutex that a panic does not poison.
//!
//! `parking_lot` has one, but a mesh of eight relays beside busy processors made only half as many deliveries with its `Condvar`.

use std::sync::{self, MutexGuard, PoisonError};

#[derive(Debug, Default)]
pub struct Mutex<T>(sync::Mutex<T>);

impl<T> Mutex<T> {
    pub fn new(value: T) -> Mutex<T> {
        Mutex(sync::Mutex::new(value))
    }

    /// Locks it, also if a task that held it has panicked.
    pub fn lock(&self) -> MutexGuard<'_, T> {
        self.0.lock().unwrap_or_else(PoisonError::into_inner)
    }
}
