//! Channels: a bounded queue of items of any type, for any number of senders and receivers.
//!
//! [`channel`](channel()) makes one. Its halves are [`Sender`] and [`Receiver`]. Their calls have the names, the
//! answers and the errors of [`std::sync::mpsc`]'s, and both halves can be cloned and shared.
//!
//! Below it is one batch queue of words. An item of up to 8 bytes is in its word. A larger one is in a box, to which
//! the word points: each send of it takes memory, also one that is refused. Whoever receives an item sees all that was
//! done before it was sent.
//!
//! The answers of `try_send` and `try_recv` are exact (linearizable): there was no room, or no item, at a moment of the
//! call. A thread finds what it sent itself, and what `is_empty` and `is_full` have shown to the only receiver or
//! sender. Therefore a `try_` call waits, by spins and then yields, while the call of another thread is under way
//! within the queue: `try_recv` for the send of the oldest item, `try_send` for the receiving that frees the place. If
//! that thread is preempted, this takes until it runs again.
//!
//! The other calls sleep on an [`Event`](crate::Event) while the channel is full or empty. If nobody sleeps, this costs
//! a call one load. If a thread sleeps, each call that wakes it takes the lock of the event and makes a system call,
//! the `try_` calls too. A half that two threads use at once takes a lock as well: so clone it for each thread.
//!
//! A thread that may never wait, such as one of real time or a signal handler, uses a [`BatchEnd`](crate::BatchEnd):
//! its tries take no lock and no memory, and wait for no other thread.
//!
//! What a call does to the queue is proved, on the library's side of it. The words, the sleeps and the counts of halves
//! are this crate's, and are only tested.

mod errors;
mod half;
mod iter;
mod receiver;
mod sender;
mod word;

pub use errors::{RecvError, RecvTimeoutError, SendError, SendTimeoutError, TryRecvError, TrySendError};
pub use iter::{IntoIter, Iter, TryIter};
pub use receiver::Receiver;
pub use sender::Sender;

use crate::ends::{OutOfMemory, SplitError};
use crate::words::says;
use half::{Half, Shared};
use std::sync::Arc;

/// Why no channel was made. The errors are in the order in which they are checked.
#[derive(Clone, Copy, Debug, PartialEq, Eq, Hash)]
#[non_exhaustive]
pub enum NewError {
    /// A channel has room for 1 to 16,777,216 items.
    BadCapacity,
    /// An allocation was refused.
    OutOfMemory,
}

says!(NewError {
    NewError::BadCapacity => "a channel has room for 1 to 16,777,216 items",
    NewError::OutOfMemory => "out of memory",
});

impl From<OutOfMemory> for NewError {
    fn from(_: OutOfMemory) -> NewError {
        NewError::OutOfMemory
    }
}

/// The most items that a channel has room for.
const MOST: usize = 1 << 24;

/// Makes a channel with room for `capacity` items, or more: the next power of two.
///
/// ```
/// use std::thread;
/// use synthesis_kernel::channel;
///
/// let (sender, receiver) = channel(64);
/// let threads = [0, 1].map(|number| {
///     let sender = sender.clone();
///     thread::spawn(move || sender.send(format!("from {number}")))
/// });
/// drop(sender);
/// let mut texts: Vec<String> = receiver.iter().collect();
/// texts.sort();
/// assert_eq!(texts, ["from 0", "from 1"]);
/// # threads.map(|thread| thread.join().unwrap().unwrap());
/// ```
///
/// # Panics
///
/// If the capacity is 0 or over 16,777,216, or if memory is refused. [`try_channel`] returns an error.
#[must_use]
#[track_caller]
pub fn channel<T>(capacity: usize) -> (Sender<T>, Receiver<T>) {
    match try_channel(capacity) {
        Ok(halves) => halves,
        Err(error) => panic!("no channel of capacity {capacity}: {error}"),
    }
}

/// As [`channel`](channel()), with an error in the place of a panic.
///
/// ```
/// use synthesis_kernel::channel::{NewError, try_channel};
///
/// let (sender, receiver) = try_channel(100)?;
/// assert_eq!(sender.capacity(), 128);
/// sender.try_send('x')?;
/// assert_eq!(receiver.recv(), Ok('x'));
/// assert_eq!(try_channel::<char>(0).unwrap_err(), NewError::BadCapacity);
/// # Ok::<(), Box<dyn std::error::Error>>(())
/// ```
///
/// # Errors
///
/// The capacity is 0 or over 16,777,216, or memory is refused.
pub fn try_channel<T>(capacity: usize) -> Result<(Sender<T>, Receiver<T>), NewError> {
    if !(1..=MOST).contains(&capacity) {
        return Err(NewError::BadCapacity);
    }
    let shared = Arc::new(Shared::new(capacity.next_power_of_two())?);
    // The first two halves find shares enough.
    let half = || Half::new(&shared).map_err(|_: SplitError| NewError::OutOfMemory);
    let (sender, receiver) = (half()?, half()?);
    Ok((Sender::new(sender), Receiver::new(receiver)))
}
