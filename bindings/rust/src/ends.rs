//! The ends of an object: how they are made, split, joined and closed, and what a dropped one leaves.
//!
//! An object is made with one handle that has the whole of it. That handle stays with the object, under a lock, and
//! each end gets a share of it. A dropped end gives its share back there, so the last end can always close the object.
//! Only new, split, close, a drop and a call that takes over what dropped ends had take the lock.

use crate::raw;
use crate::words::says;
use std::error::Error;
use std::fmt;
use std::mem;
use std::sync::{Arc, Mutex, MutexGuard, PoisonError};

/// An allocation was refused. All is as it was.
#[derive(Clone, Copy, Debug, PartialEq, Eq, Hash)]
pub struct OutOfMemory;

/// Why an end was not split. The errors are in the order in which they are checked.
#[derive(Clone, Copy, Debug, PartialEq, Eq, Hash)]
#[non_exhaustive]
pub enum SplitError {
    /// The object has more than 2^43 ends. Drop some, or join them to others.
    NoShare,
    /// An allocation was refused.
    OutOfMemory,
}

/// The two ends are of two objects. It has the end that was to be joined, or both ends of a line.
#[derive(Clone, Copy, PartialEq, Eq, Hash)]
pub struct JoinError<E> {
    end: E,
}

/// Why an object was not closed. It has the end that was to close it.
#[derive(Clone, Copy, PartialEq, Eq, Hash)]
#[non_exhaustive]
pub enum CloseError<E> {
    /// Other ends exist, or were leaked, as by [`mem::forget`](std::mem::forget). Drop them or join them first.
    Open(E),
    /// The end runs the notes of its chain. Take all of them from its [`Turn`](crate::chain::Turn) first.
    Running(E),
}

impl<E> JoinError<E> {
    /// The end that was to be joined, or both ends of a line.
    pub fn into_inner(self) -> E {
        self.end
    }
}

impl<E> CloseError<E> {
    /// The end that was to close the object.
    pub fn into_inner(self) -> E {
        match self {
            CloseError::Open(end) | CloseError::Running(end) => end,
        }
    }
}

impl<E> fmt::Debug for JoinError<E> {
    fn fmt(&self, f: &mut fmt::Formatter<'_>) -> fmt::Result {
        f.debug_struct("JoinError").finish_non_exhaustive()
    }
}

impl<E> fmt::Debug for CloseError<E> {
    fn fmt(&self, f: &mut fmt::Formatter<'_>) -> fmt::Result {
        f.write_str(match self {
            CloseError::Open(_) => "Open(..)",
            CloseError::Running(_) => "Running(..)",
        })
    }
}

impl<E> fmt::Display for JoinError<E> {
    fn fmt(&self, f: &mut fmt::Formatter<'_>) -> fmt::Result {
        f.write_str("the ends are of two objects")
    }
}

impl<E> fmt::Display for CloseError<E> {
    fn fmt(&self, f: &mut fmt::Formatter<'_>) -> fmt::Result {
        f.write_str(match self {
            CloseError::Open(_) => "other ends exist",
            CloseError::Running(_) => "the end runs notes",
        })
    }
}

impl<E> Error for JoinError<E> {}
impl<E> Error for CloseError<E> {}

says!(OutOfMemory {
    OutOfMemory => "out of memory",
});

says!(SplitError {
    SplitError::NoShare => "the object has too many ends",
    SplitError::OutOfMemory => "out of memory",
});

/// A handle of an object that any number of ends share.
pub(crate) trait Handle: Default {
    /// Fills an empty handle, and gives it a share.
    fn split(&mut self, other: &mut Self) -> i32;

    /// Takes the share of the other handle, and empties that one.
    fn join(&mut self, other: &mut Self) -> i32;

    /// Empties the handle, whose share is lost then.
    fn free(&mut self);

    /// Whether the end has nothing of its own except its share.
    fn is_plain(&mut self) -> bool {
        true
    }
}

/// What an object keeps. It is freed with its last end.
#[derive(Debug)]
struct Rest<H: Handle> {
    /// The share that no end has. It has nothing else, so that new ends have nothing else either.
    spare: H,
    /// What dropped ends had that had more than a share. Empty at first.
    dropped: H,
}

impl<H: Handle> Drop for Rest<H> {
    fn drop(&mut self) {
        self.spare.free();
        self.dropped.free();
    }
}

/// An end of an object: a handle, and the rest of the object. A drop gives its share back.
#[derive(Debug)]
pub(crate) struct Share<H: Handle> {
    handle: H,
    rest: Arc<Mutex<Rest<H>>>,
}

fn locked<H: Handle>(rest: &Mutex<Rest<H>>) -> MutexGuard<'_, Rest<H>> {
    // No call of the library unwinds, so what a poisoned lock guards is whole.
    rest.lock().unwrap_or_else(PoisonError::into_inner)
}

impl<H: Handle> Share<H> {
    /// The only end of an object, by its first handle.
    pub(crate) fn new(first: H) -> Result<Share<H>, OutOfMemory> {
        Share::new_by(first, H::split)
    }

    /// The only end of an object, which is split off its first handle by this call.
    pub(crate) fn new_by(first: H, split: impl FnOnce(&mut H, &mut H) -> i32) -> Result<Share<H>, OutOfMemory> {
        let (mut rest, mut handle) = (Rest { spare: first, dropped: H::default() }, H::default());
        match split(&mut rest.spare, &mut handle) {
            raw::OK => Ok(Share { handle, rest: Arc::new(Mutex::new(rest)) }),
            raw::NO_MEMORY => Err(OutOfMemory),
            code => raw::no_such_answer(code),
        }
    }

    /// The handle, for a call.
    pub(crate) fn handle(&mut self) -> &mut H {
        &mut self.handle
    }

    /// A new end of the same object.
    pub(crate) fn split(&self) -> Result<Share<H>, SplitError> {
        let mut handle = H::default();
        let code = locked(&self.rest).spare.split(&mut handle);
        split_error(code)?;
        Ok(Share { handle, rest: Arc::clone(&self.rest) })
    }

    /// A new end of the same object, which is split off this one by the call given.
    pub(crate) fn split_by(&mut self, split: impl FnOnce(&mut H, &mut H) -> i32) -> Result<Share<H>, i32> {
        let mut handle = H::default();
        match split(&mut self.handle, &mut handle) {
            raw::OK => Ok(Share { handle, rest: Arc::clone(&self.rest) }),
            code => Err(code),
        }
    }

    /// Gets one more share of what no end has.
    pub(crate) fn refill(&mut self) -> Result<(), SplitError> {
        let mut more = H::default();
        let code = locked(&self.rest).spare.split(&mut more);
        split_error(code)?;
        must_join(self.handle.join(&mut more));
        Ok(())
    }

    /// Takes what dropped ends had.
    pub(crate) fn take_over(&mut self) {
        self.handle.join(&mut locked(&self.rest).dropped);
    }

    /// Whether both ends are of one object.
    pub(crate) fn is_of_one(&self, other: &Share<H>) -> bool {
        Arc::ptr_eq(&self.rest, &other.rest)
    }

    /// Joins another end to this one. One of another object comes back.
    pub(crate) fn join(&mut self, mut other: Share<H>) -> Result<(), Share<H>> {
        if !self.is_of_one(&other) {
            return Err(other);
        }
        if !other.handle.is_plain() {
            must_join(self.handle.join(&mut other.handle));
        }
        // An end that has nothing but its share is dropped, so its share is there for new ends.
        Ok(())
    }

    /// Whether no other end exists.
    pub(crate) fn is_last(&mut self) -> bool {
        Arc::get_mut(&mut self.rest).is_some()
    }

    /// The handle, if no other end exists. It then has the whole object, whose close has to follow.
    ///
    /// A handle that was dropped by another thread got into the rest before that thread let go of the rest, and
    /// `Arc::get_mut` finds this end alone only after that.
    pub(crate) fn whole(&mut self) -> Option<&mut H> {
        let rest = Arc::get_mut(&mut self.rest)?.get_mut().unwrap_or_else(PoisonError::into_inner);
        must_join(self.handle.join(&mut rest.spare));
        self.handle.join(&mut rest.dropped);
        Some(&mut self.handle)
    }
}

impl<H: Handle> Drop for Share<H> {
    fn drop(&mut self) {
        let is_plain = self.handle.is_plain();
        let mut rest = locked(&self.rest);
        if is_plain {
            // After a join or a close both handles are empty, and the call answers so by a code.
            rest.spare.join(&mut self.handle);
        } else if rest.dropped.join(&mut self.handle) == raw::EMPTY_HANDLE {
            mem::swap(&mut rest.dropped, &mut self.handle);
        }
    }
}

/// What a split answers.
pub(crate) fn split_error(code: i32) -> Result<(), SplitError> {
    match code {
        raw::OK => Ok(()),
        raw::NO_SHARE => Err(SplitError::NoShare),
        raw::NO_MEMORY => Err(SplitError::OutOfMemory),
        code => raw::no_such_answer(code),
    }
}

/// A join of two full handles of one object.
fn must_join(code: i32) {
    if code != raw::OK {
        raw::no_such_answer(code);
    }
}

/// The handle that a `.._new` fills.
pub(crate) fn made<H: Default>(new: impl FnOnce(&mut H) -> i32) -> Result<H, OutOfMemory> {
    let mut handle = H::default();
    match new(&mut handle) {
        raw::OK => Ok(handle),
        raw::NO_MEMORY => Err(OutOfMemory),
        code => raw::no_such_answer(code),
    }
}

/// A join's answer for an end of which this is the share.
pub(crate) fn joined<H: Handle, E>(
    answer: Result<(), Share<H>>,
    end: impl FnOnce(Share<H>) -> E,
) -> Result<(), JoinError<E>> {
    answer.map_err(|share| JoinError { end: end(share) })
}

impl<E> JoinError<E> {
    pub(crate) fn new(end: E) -> JoinError<E> {
        JoinError { end }
    }
}

/// The handles whose ends have nothing of their own but a share.
macro_rules! plain_handles {
    ($($name:ident: $split:ident, $join:ident);+ $(;)?) => {$(
        impl Handle for raw::$name {
            fn split(&mut self, other: &mut Self) -> i32 {
                raw::$split(self, other)
            }

            fn join(&mut self, other: &mut Self) -> i32 {
                raw::$join(self, other)
            }

            fn free(&mut self) {
                raw::$name::free(self);
            }
        }
    )+};
}

plain_handles! {
    Batch: synth_raw_batch_split, synth_raw_batch_join;
    Queue: synth_raw_queue_split, synth_raw_queue_join;
    Seat: synth_raw_seat_split, synth_raw_seat_join;
}
