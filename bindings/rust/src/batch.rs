//! Batch queues: any number of producers and takers, by bursts.

use crate::ends::{CloseError, JoinError, OutOfMemory, Share, SplitError, joined};
use crate::raw;
use crate::words::says;
use std::hint;

/// An end of a batch queue, and its queue. Each end may put and take.
///
/// A put is one batch, of which no item can be taken before all can. A taking takes whole batches, by one step, unless
/// it is one by [`BatchEnd::try_take_some`]. No position comes back: a queue takes 2^62 items, 146 years at a billion a
/// second.
///
/// Each call except [`split`](BatchEnd::split), [`close`](BatchEnd::close) and a drop ends after a bounded number of
/// its own steps, and waits for no other thread. While a thread is stopped within its put, nobody gets what was put
/// after it; what a thread that is stopped within its taking has taken keeps its places.
///
/// A dropped end gives its share back, so the last end can always close the queue. The last one to be dropped takes the
/// queue with it, and the items left.
///
/// An end may go to another thread. All its calls that come to the queue take `&mut`, so it may be shared too, as an
/// error that carries it may have to be:
///
/// ```
/// fn is_send_and_sync<T: Send + Sync>() {}
/// is_send_and_sync::<synthesis_kernel::BatchEnd>();
/// ```
#[derive(Debug)]
pub struct BatchEnd {
    share: Share<raw::Batch>,
    capacity: usize,
}

/// Why no batch queue was made. The errors are in the order in which they are checked.
#[derive(Clone, Copy, Debug, PartialEq, Eq, Hash)]
#[non_exhaustive]
pub enum NewError {
    /// The capacity is no power of two from 1 to 16,777,216.
    BadCapacity,
    /// An allocation was refused.
    OutOfMemory,
}

/// Why nothing was put. The errors are in the order in which they are checked.
#[derive(Clone, Copy, Debug, PartialEq, Eq, Hash)]
#[non_exhaustive]
pub enum PutError {
    /// There is no item.
    NoItems,
    /// There are more items than places.
    TooLong,
    /// The queue is shut.
    Closed,
    /// The items would go past the last position, 2^62 - 1.
    Spent,
    /// There was no room for so many.
    Full {
        /// The position that the first item would have had.
        head: u64,
        /// The first position whose place was not given back.
        free: u64,
    },
    /// Another end was first.
    Lost {
        /// The head that was found.
        head: u64,
    },
}

/// Why nothing was taken.
#[derive(Clone, Copy, Debug, PartialEq, Eq, Hash)]
#[non_exhaustive]
pub enum TakeError {
    /// Nothing was published at the tail.
    Empty {
        /// The tail.
        at: u64,
    },
    /// The oldest batch, or what is left of it, is longer than the buffer.
    ShortBuffer {
        /// The position of its first item.
        at: u64,
        /// How many items it has.
        count: usize,
    },
    /// Another end took first, or parted the batch that this one tried to part.
    Lost {
        /// The tail that was found.
        tail: u64,
    },
    /// The queue is shut, and all that was put is taken.
    Closed,
}

/// What a batch queue had at its end.
#[derive(Clone, Debug, PartialEq, Eq, Hash)]
pub struct Closed {
    /// How many items were put.
    pub put: u64,
    /// How many items were taken; they are the first of those put.
    pub taken: u64,
    /// The items left, all others, in their order.
    pub left: Vec<u64>,
}

/// What a look at a batch queue found. The numbers were found one after the other, and may have changed since.
#[derive(Clone, Copy, Debug, PartialEq, Eq, Hash)]
#[non_exhaustive]
pub struct Status {
    /// The position of the next item that is taken.
    pub tail: u64,
    /// All items before this position are published. If it stays where it is, below the head, a thread is held up
    /// within its put, and so are the takers of what was put after it.
    pub published: u64,
    /// The position of the next item that is put. It was found last.
    pub head: u64,
    /// The queue is shut.
    pub shut: bool,
}

says!(NewError {
    NewError::BadCapacity => "the capacity is no power of two from 1 to 16,777,216",
    NewError::OutOfMemory => "out of memory",
});

says!(PutError {
    PutError::NoItems => "no items",
    PutError::TooLong => "more items than places",
    PutError::Closed => "the queue is shut",
    PutError::Spent => "no positions left",
    PutError::Full { head, free } => "full at head {head}, free {free}",
    PutError::Lost { head } => "lost, head {head}",
});

says!(TakeError {
    TakeError::Empty { at } => "nothing published at {at}",
    TakeError::ShortBuffer { at, count } => "a batch of {count} at {at}",
    TakeError::Lost { tail } => "lost, tail {tail}",
    TakeError::Closed => "the queue is shut and empty",
});

/// What a put answers.
fn put(code: i32, at: raw::Positions) -> Result<u64, PutError> {
    match code {
        raw::OK => Ok(at.head),
        raw::NO_ITEMS => Err(PutError::NoItems),
        raw::TOO_LONG => Err(PutError::TooLong),
        raw::CLOSED => Err(PutError::Closed),
        raw::SPENT => Err(PutError::Spent),
        raw::FULL => Err(PutError::Full { head: at.head, free: at.tail }),
        raw::LOST => Err(PutError::Lost { head: at.head }),
        code => raw::no_such_answer(code),
    }
}

/// What a taking answers.
fn taken(code: i32, count: usize, at: raw::Positions) -> Result<usize, TakeError> {
    match code {
        raw::OK => Ok(count),
        raw::EMPTY => Err(TakeError::Empty { at: at.tail }),
        raw::SHORT_BUFFER => Err(TakeError::ShortBuffer { at: at.tail, count }),
        raw::LOST => Err(TakeError::Lost { tail: at.tail }),
        raw::CLOSED => Err(TakeError::Closed),
        code => raw::no_such_answer(code),
    }
}

impl BatchEnd {
    /// An empty queue with so many places, a power of two from 1 to 16,777,216, by its only end.
    ///
    /// ```
    /// use synthesis_kernel::batch::{BatchEnd, NewError, PutError};
    ///
    /// let mut taker = BatchEnd::new(8)?;
    /// let mut putter = taker.split()?;
    /// assert_eq!(putter.try_put(&[1, 2, 3]), Ok(0));
    /// assert_eq!(putter.try_put(&[0; 6]), Err(PutError::Full { head: 3, free: 0 }));
    /// let mut items = [0; 8];
    /// assert_eq!(taker.try_take(&mut items), Ok(3));
    /// assert_eq!(items[..3], [1, 2, 3]);
    /// assert_eq!(BatchEnd::new(9).unwrap_err(), NewError::BadCapacity);
    /// # Ok::<(), Box<dyn std::error::Error>>(())
    /// ```
    ///
    /// # Errors
    ///
    /// The capacity is no power of two in this range, or memory is refused.
    pub fn new(capacity: usize) -> Result<BatchEnd, NewError> {
        let mut handle = raw::Batch::default();
        match raw::batch_new(capacity, &mut handle) {
            raw::OK => {}
            raw::BAD_NUMBER => return Err(NewError::BadCapacity),
            raw::NO_MEMORY => return Err(NewError::OutOfMemory),
            code => raw::no_such_answer(code),
        }
        let share = Share::new(handle).map_err(|OutOfMemory| NewError::OutOfMemory)?;
        Ok(BatchEnd { share, capacity })
    }

    /// A new end, for another thread.
    ///
    /// ```
    /// # use synthesis_kernel::BatchEnd;
    /// let end = BatchEnd::new(64)?;
    /// let mut other = end.split()?;
    /// std::thread::spawn(move || other.try_put(&[1])).join().unwrap()?;
    /// assert_eq!(end.close()?.left, [1]);
    /// # Ok::<(), Box<dyn std::error::Error>>(())
    /// ```
    ///
    /// # Errors
    ///
    /// The queue has more than 2^43 ends, or memory is refused.
    pub fn split(&self) -> Result<BatchEnd, SplitError> {
        Ok(BatchEnd { share: self.share.split()?, capacity: self.capacity })
    }

    /// Joins an end of the same queue to this one. A drop does the same. An end of another queue comes back.
    ///
    /// ```
    /// # use synthesis_kernel::BatchEnd;
    /// let mut end = BatchEnd::new(64)?;
    /// let stranger = BatchEnd::new(64)?;
    /// let error = end.join(stranger).unwrap_err();
    /// assert!(error.into_inner().close().is_ok());
    /// # Ok::<(), Box<dyn std::error::Error>>(())
    /// ```
    ///
    /// # Errors
    ///
    /// The end is of another queue. It comes back.
    pub fn join(&mut self, other: BatchEnd) -> Result<(), JoinError<BatchEnd>> {
        let BatchEnd { share, capacity } = other;
        joined(self.share.join(share), |share| BatchEnd { share, capacity })
    }

    /// One try to put the items as one batch: all of them or none. Gives the position of the first one.
    ///
    /// ```
    /// # use synthesis_kernel::batch::{BatchEnd, PutError};
    /// let mut end = BatchEnd::new(4)?;
    /// assert_eq!(end.try_put(&[1, 2, 3]), Ok(0));
    /// assert_eq!(end.try_put(&[4]), Ok(3));
    /// assert_eq!(end.try_put(&[5]), Err(PutError::Full { head: 4, free: 0 }));
    /// assert_eq!(end.try_put(&[0; 5]), Err(PutError::TooLong));
    /// # Ok::<(), Box<dyn std::error::Error>>(())
    /// ```
    ///
    /// # Errors
    ///
    /// Any [`PutError`], in the order of their list. Nothing was put then.
    pub fn try_put(&mut self, items: &[u64]) -> Result<u64, PutError> {
        let mut at = raw::Positions::default();
        // SAFETY: the pointer leads to as many items as the number says. Clause `put`: the call only reads them.
        let code =
            unsafe { raw::synth_raw_batch_try_put(self.share.handle(), items.as_ptr().cast(), items.len(), &mut at) };
        put(code, at)
    }

    /// One try to put as many of the first items as there is room for, as one batch. Gives the position of the first
    /// one, and their number. It is never TooLong.
    ///
    /// ```
    /// # use synthesis_kernel::BatchEnd;
    /// let mut end = BatchEnd::new(4)?;
    /// assert_eq!(end.try_put_some(&[1, 2, 3]), Ok((0, 3)));
    /// assert_eq!(end.try_put_some(&[4, 5, 6]), Ok((3, 1)));
    /// # Ok::<(), Box<dyn std::error::Error>>(())
    /// ```
    ///
    /// # Errors
    ///
    /// Any [`PutError`] except `TooLong`. Nothing was put then.
    pub fn try_put_some(&mut self, items: &[u64]) -> Result<(u64, usize), PutError> {
        let (mut count, mut at) = (0, raw::Positions::default());
        // SAFETY: the pointer leads to as many items as the number says. Clause `put`: the call only reads them.
        let code = unsafe {
            raw::synth_raw_batch_try_put_some(
                self.share.handle(),
                items.as_ptr().cast(),
                items.len(),
                &mut count,
                &mut at,
            )
        };
        Ok((put(code, at)?, count))
    }

    /// One try to take batches: as many whole ones as are published, from the oldest on, and fit into `items`. Gives
    /// the number of items.
    ///
    /// ```
    /// # use synthesis_kernel::batch::{BatchEnd, TakeError};
    /// let mut end = BatchEnd::new(8)?;
    /// let mut items = [0; 4];
    /// assert_eq!(end.try_take(&mut items), Err(TakeError::Empty { at: 0 }));
    /// end.try_put(&[1, 2, 3])?;
    /// end.try_put(&[4, 5])?;
    /// assert_eq!(end.try_take(&mut items), Ok(3));
    /// assert_eq!(end.try_take(&mut items[..1]), Err(TakeError::ShortBuffer { at: 3, count: 2 }));
    /// # Ok::<(), Box<dyn std::error::Error>>(())
    /// ```
    ///
    /// # Errors
    ///
    /// Any [`TakeError`]. Nothing was taken then, and `items` is as it was.
    pub fn try_take(&mut self, items: &mut [u64]) -> Result<usize, TakeError> {
        let (mut count, mut at) = (0, raw::Positions::default());
        // SAFETY: the pointer leads to as much room as the number says, and nobody else has it. Clause `taken`: the
        // call writes there what it has taken, and nothing else.
        let code = unsafe {
            raw::synth_raw_batch_try_take(
                self.share.handle(),
                items.as_mut_ptr().cast(),
                items.len(),
                &mut count,
                &mut at,
            )
        };
        taken(code, count, at)
    }

    /// One try to take up to as many items as `items` has room for, where need be the first ones of a batch. Its others
    /// stay published, and the next taking begins with them.
    ///
    /// ```
    /// # use synthesis_kernel::BatchEnd;
    /// let mut end = BatchEnd::new(8)?;
    /// end.try_put(&[1, 2, 3])?;
    /// let mut items = [0; 2];
    /// assert_eq!(end.try_take_some(&mut items), Ok(2));
    /// assert_eq!(end.try_take_some(&mut items), Ok(1));
    /// assert_eq!(items, [3, 2]);
    /// # Ok::<(), Box<dyn std::error::Error>>(())
    /// ```
    ///
    /// # Errors
    ///
    /// Any [`TakeError`]; `ShortBuffer` only if `items` is empty. Nothing was taken then, and `items` is as it was.
    pub fn try_take_some(&mut self, items: &mut [u64]) -> Result<usize, TakeError> {
        let (mut count, mut at) = (0, raw::Positions::default());
        // SAFETY: the pointer leads to as much room as the number says, and nobody else has it. Clause `taken`: the
        // call writes there what it has taken, and nothing else.
        let code = unsafe {
            raw::synth_raw_batch_try_take_some(
                self.share.handle(),
                items.as_mut_ptr().cast(),
                items.len(),
                &mut count,
                &mut at,
            )
        };
        taken(code, count, at)
    }

    /// Takes items one by one, and ends when there is nothing to take. Another end may take between them.
    ///
    /// ```
    /// # use synthesis_kernel::BatchEnd;
    /// let mut end = BatchEnd::new(8)?;
    /// end.try_put(&[1, 2, 3])?;
    /// assert!(end.try_iter().eq([1, 2, 3]));
    /// # Ok::<(), Box<dyn std::error::Error>>(())
    /// ```
    pub fn try_iter(&mut self) -> TryIter<'_> {
        TryIter { end: self }
    }

    /// A look for whoever watches the queue.
    ///
    /// ```
    /// # use synthesis_kernel::batch::{BatchEnd, Status};
    /// let mut end = BatchEnd::new(8)?;
    /// end.try_put(&[1, 2, 3])?;
    /// end.try_take_some(&mut [0])?;
    /// end.shut();
    /// let status = end.look();
    /// assert_eq!((status.tail, status.published, status.head, status.shut), (1, 3, 3, true));
    /// # Ok::<(), Box<dyn std::error::Error>>(())
    /// ```
    pub fn look(&mut self) -> Status {
        let mut found = raw::BatchStatus::default();
        match raw::synth_raw_batch_look(self.share.handle(), &mut found) {
            raw::OK => Status { tail: found.tail, published: found.published, head: found.head, shut: found.shut },
            code => raw::no_such_answer(code),
        }
    }

    /// A hint of how many items are in the queue, published or not. Other ends change it meanwhile.
    ///
    /// ```
    /// # use synthesis_kernel::BatchEnd;
    /// let mut end = BatchEnd::new(8)?;
    /// end.try_put(&[1, 2, 3])?;
    /// assert_eq!((end.len(), end.is_empty(), end.capacity()), (3, false, 8));
    /// # Ok::<(), Box<dyn std::error::Error>>(())
    /// ```
    pub fn len(&mut self) -> usize {
        let mut count = 0;
        match raw::synth_raw_batch_len(self.share.handle(), &mut count) {
            raw::OK => usize::try_from(count).unwrap_or(usize::MAX),
            code => raw::no_such_answer(code),
        }
    }

    /// A hint of whether no item is in the queue, published or not.
    pub fn is_empty(&mut self) -> bool {
        self.len() == 0
    }

    /// How many places the queue has.
    #[must_use]
    pub fn capacity(&self) -> usize {
        self.capacity
    }

    /// Shuts the queue for puts, for good; what was put can still be taken. True if it was open, which
    /// one end alone ever observes.
    ///
    /// ```
    /// # use synthesis_kernel::batch::{BatchEnd, PutError, TakeError};
    /// let mut end = BatchEnd::new(64)?;
    /// assert!(end.shut());
    /// assert!(!end.shut());
    /// assert_eq!(end.try_put(&[1]), Err(PutError::Closed));
    /// assert_eq!(end.try_take(&mut [0; 8]), Err(TakeError::Closed));
    /// # Ok::<(), Box<dyn std::error::Error>>(())
    /// ```
    pub fn shut(&mut self) -> bool {
        let mut was_open = false;
        match raw::synth_raw_batch_shut(self.share.handle(), &mut was_open) {
            raw::OK => was_open,
            code => raw::no_such_answer(code),
        }
    }

    /// Closes the queue, and returns what became of its items. If other ends exist, this one comes back. Of two threads
    /// that try at the same moment each may find the other's end.
    ///
    /// ```
    /// # use synthesis_kernel::BatchEnd;
    /// let end = BatchEnd::new(64)?;
    /// let mut other = end.split()?;
    /// other.try_put(&[1, 2])?;
    /// let end = end.close().unwrap_err().into_inner();
    /// drop(other);
    /// let closed = end.close()?;
    /// assert_eq!((closed.put, closed.taken, closed.left), (2, 0, vec![1, 2]));
    /// # Ok::<(), Box<dyn std::error::Error>>(())
    /// ```
    ///
    /// # Errors
    ///
    /// Another end exists, or was leaked. This one comes back.
    pub fn close(mut self) -> Result<Closed, CloseError<BatchEnd>> {
        let capacity = self.capacity;
        let Some(handle) = self.share.whole() else { return Err(CloseError::Open(self)) };
        let mut left = vec![0_u64; capacity];
        let mut numbers = raw::BatchClosed::default();
        // SAFETY: the pointer leads to as much room as the number says, and nobody else has it. Clause `closed`:
        // the call writes there what is left, and nothing else.
        match unsafe { raw::synth_raw_batch_close(handle, left.as_mut_ptr(), left.len(), &mut numbers) } {
            // A put that never ended has no items here: a thread was ended within it, from outside of Rust.
            raw::OK | raw::BROKEN => {}
            code => raw::no_such_answer(code),
        }
        left.truncate(numbers.left);
        Ok(Closed { put: numbers.put, taken: numbers.taken, left })
    }
}

/// Takes items one by one: see [`BatchEnd::try_iter`].
#[derive(Debug)]
pub struct TryIter<'end> {
    end: &'end mut BatchEnd,
}

impl Iterator for TryIter<'_> {
    type Item = u64;

    fn next(&mut self) -> Option<u64> {
        let mut item = [0];
        loop {
            match self.end.try_take_some(&mut item) {
                Ok(_) => return Some(item[0]),
                Err(TakeError::Lost { .. }) => hint::spin_loop(),
                Err(_) => return None,
            }
        }
    }
}
