//! Claim queues: any number of producers and takers.

mod waits;

pub use waits::QueueEvents;

use crate::ends::{CloseError, JoinError, OutOfMemory, Share, SplitError, joined, made};
use crate::raw;
use crate::words::says;

/// An end of a queue of `N` places, 64 or 256, and its queue. Each end may put and take.
///
/// Each call except [`split`](QueueEnd::split), [`close`](QueueEnd::close), a drop, `put_wait` and `take_wait` ends
/// after a bounded number of its own steps, and waits for no other thread. While a thread is stopped within its put,
/// nobody gets what was put after it.
///
/// A dropped end gives its share back, so the last end can always close the queue. The last one to be dropped takes the
/// queue with it, and the items left.
///
/// It may go to another thread, and be shared, though no call but a split is made by `&`:
///
/// ```
/// fn is_send_and_sync<T: Send + Sync>() {}
/// is_send_and_sync::<synthesis_kernel::QueueEnd<64>>();
/// ```
///
/// There are no queues of other sizes:
///
/// ```compile_fail
/// let end = synthesis_kernel::QueueEnd::<65>::new(0);
/// ```
#[derive(Debug)]
pub struct QueueEnd<const N: usize> {
    share: Share<raw::Queue>,
}

/// Why nothing was put. The errors are in the order in which they are checked.
#[derive(Clone, Copy, Debug, PartialEq, Eq, Hash)]
#[non_exhaustive]
pub enum PutError {
    /// The run has no item.
    NoItems,
    /// The run has more items than the queue has places.
    TooLong,
    /// The queue is shut.
    Closed,
    /// The run would go past the last position, 4,294,967,294. Shorter runs may still fit; no position comes back.
    Spent,
    /// There was no room for the run: `head` and the number of items exceed `tail` and N. Both are positions.
    Full {
        /// The head that was loaded.
        head: u32,
        /// The tail that was loaded after it.
        tail: u32,
    },
    /// Another end put first.
    Lost {
        /// The head that was found, past the one that was loaded.
        head: u32,
    },
}

/// Why nothing was taken.
#[derive(Clone, Copy, Debug, PartialEq, Eq, Hash)]
#[non_exhaustive]
pub enum TakeError {
    /// There was nothing to take: no item, or no whole line.
    Empty {
        /// The first position whose place was not raised.
        at: u32,
    },
    /// Another end took first.
    Lost {
        /// The tail that was found, past the one that was loaded.
        tail: u32,
    },
    /// The queue is shut, and all that was put is taken.
    Closed,
}

/// What a queue had at its end.
#[derive(Clone, Debug, PartialEq, Eq, Hash)]
pub struct Closed {
    /// Its first position.
    pub first: u32,
    /// How many items were put.
    pub put: u32,
    /// How many items were taken; they are the first of those put.
    pub taken: u32,
    /// The items left, all others, in their order.
    pub left: Vec<u64>,
}

/// What a look at a claim queue found. The numbers were found one after the other, and may have changed since.
#[derive(Clone, Copy, Debug, PartialEq, Eq, Hash)]
#[non_exhaustive]
pub struct Status {
    /// The position of the next item that is taken.
    pub tail: u32,
    /// The position of the next item that is put: `u32::MAX` less that many are left.
    pub head: u32,
    /// So many items are raised from the tail on, without a gap, and not past the head. If the tail stays where it is
    /// and these are less than all, a thread is held up within its put, and so are the takers of what was put after it.
    pub raised: u32,
    /// The queue is shut.
    pub shut: bool,
}

says!(PutError {
    PutError::NoItems => "no items",
    PutError::TooLong => "more items than places",
    PutError::Closed => "the queue is shut",
    PutError::Spent => "no positions left",
    PutError::Full { head, tail } => "full at head {head}, tail {tail}",
    PutError::Lost { head } => "lost, head {head}",
});

says!(TakeError {
    TakeError::Empty { at } => "nothing raised at {at}",
    TakeError::Lost { tail } => "lost, tail {tail}",
    TakeError::Closed => "the queue is shut and empty",
});

/// What a try to take answers.
fn taken(answer: raw::Answer) -> Result<(), TakeError> {
    match answer.code {
        raw::OK => Ok(()),
        raw::EMPTY => Err(TakeError::Empty { at: answer.tail }),
        raw::LOST => Err(TakeError::Lost { tail: answer.tail }),
        raw::CLOSED => Err(TakeError::Closed),
        code => raw::no_such_answer(code),
    }
}

impl<const N: usize> QueueEnd<N> {
    /// An empty queue whose first position is `first`, by its only end.
    ///
    /// ```
    /// use synthesis_kernel::queue::{PutError, QueueEnd};
    ///
    /// let mut taker = QueueEnd::<64>::new(0)?;
    /// let mut putter = taker.split()?;
    /// assert_eq!(putter.try_put(&[104, 105, 10]), Ok(0));
    /// assert_eq!(putter.try_put(&[0; 62]), Err(PutError::Full { head: 3, tail: 0 }));
    /// let mut line = [0; 64];
    /// assert_eq!(taker.try_take_line(&mut line), Ok(3));
    /// assert_eq!(line[..3], [104, 105, 10]);
    /// # Ok::<(), Box<dyn std::error::Error>>(())
    /// ```
    ///
    /// # Errors
    ///
    /// Memory is refused.
    pub fn new(first: u32) -> Result<QueueEnd<N>, OutOfMemory> {
        const { assert!(N == 64 || N == 256, "a queue has 64 or 256 places") }
        let first = made(|handle| raw::queue_new(N as u32, first, handle))?;
        Ok(QueueEnd { share: Share::new(first)? })
    }

    /// A new end, for another thread.
    ///
    /// ```
    /// # use synthesis_kernel::QueueEnd;
    /// let end = QueueEnd::<64>::new(0)?;
    /// let mut other = end.split()?;
    /// std::thread::spawn(move || other.try_put(&[1])).join().unwrap()?;
    /// assert_eq!(end.close()?.left, [1]);
    /// # Ok::<(), Box<dyn std::error::Error>>(())
    /// ```
    ///
    /// # Errors
    ///
    /// The queue has more than 2^43 ends, or memory is refused.
    pub fn split(&self) -> Result<QueueEnd<N>, SplitError> {
        Ok(QueueEnd { share: self.share.split()? })
    }

    /// Joins an end of the same queue to this one. A drop does the same. An end of another queue comes back.
    ///
    /// ```
    /// # use synthesis_kernel::QueueEnd;
    /// let mut end = QueueEnd::<64>::new(0)?;
    /// let stranger = QueueEnd::new(0)?;
    /// let error = end.join(stranger).unwrap_err();
    /// assert!(error.into_inner().close().is_ok());
    /// # Ok::<(), Box<dyn std::error::Error>>(())
    /// ```
    ///
    /// # Errors
    ///
    /// The end is of another queue. It comes back.
    pub fn join(&mut self, other: QueueEnd<N>) -> Result<(), JoinError<QueueEnd<N>>> {
        joined(self.share.join(other.share), |share| QueueEnd { share })
    }

    /// One try to put a run of items, with no other end's item between them. Gives the position of the first one.
    ///
    /// ```
    /// # use synthesis_kernel::queue::{PutError, QueueEnd};
    /// let mut end = QueueEnd::<64>::new(0)?;
    /// assert_eq!(end.try_put(&[1; 60]), Ok(0));
    /// assert_eq!(end.try_put(&[2; 5]), Err(PutError::Full { head: 60, tail: 0 }));
    /// # Ok::<(), Box<dyn std::error::Error>>(())
    /// ```
    ///
    /// # Errors
    ///
    /// Any [`PutError`], in the order of their list. Nothing was put then.
    pub fn try_put(&mut self, items: &[u64]) -> Result<u32, PutError> {
        // SAFETY: the pointer leads to as many items as the number says. Clause `put`: the call only reads them.
        let answer = unsafe { raw::synth_raw_queue_try_put(self.share.handle(), items.as_ptr(), items.len()) };
        match answer.code {
            raw::OK => Ok(answer.head),
            raw::NO_ITEMS => Err(PutError::NoItems),
            raw::TOO_LONG => Err(PutError::TooLong),
            raw::CLOSED => Err(PutError::Closed),
            raw::SPENT => Err(PutError::Spent),
            raw::FULL => Err(PutError::Full { head: answer.head, tail: answer.tail }),
            raw::LOST => Err(PutError::Lost { head: answer.head }),
            code => raw::no_such_answer(code),
        }
    }

    /// One try to take the first item left.
    ///
    /// ```
    /// # use synthesis_kernel::queue::{QueueEnd, TakeError};
    /// let mut end = QueueEnd::<64>::new(7)?;
    /// assert_eq!(end.try_take(), Err(TakeError::Empty { at: 7 }));
    /// end.try_put(&[1])?;
    /// assert_eq!(end.try_take(), Ok(1));
    /// # Ok::<(), Box<dyn std::error::Error>>(())
    /// ```
    ///
    /// # Errors
    ///
    /// Any [`TakeError`]. Nothing was taken then.
    pub fn try_take(&mut self) -> Result<u64, TakeError> {
        let mut item = 0;
        taken(raw::synth_raw_queue_try_take(self.share.handle(), &mut item))?;
        Ok(item)
    }

    /// Takes the first items left, one by one, until one is refused or `items` is full, and gives their number. Other
    /// ends' takings may come between them. The refusal is that of the first one; a list without room takes none.
    ///
    /// ```
    /// # use synthesis_kernel::QueueEnd;
    /// let mut end = QueueEnd::<256>::new(0)?;
    /// end.try_put(&[1, 2, 3])?;
    /// let mut items = [0; 2];
    /// assert_eq!(end.take_up_to(&mut items), Ok(2));
    /// assert_eq!(end.take_up_to(&mut items), Ok(1));
    /// assert_eq!(items, [3, 2]);
    /// # Ok::<(), Box<dyn std::error::Error>>(())
    /// ```
    ///
    /// # Errors
    ///
    /// That of the first try, any [`TakeError`]. Nothing was taken then.
    pub fn take_up_to(&mut self, items: &mut [u64]) -> Result<usize, TakeError> {
        if items.is_empty() {
            return Ok(0);
        }
        let mut count = 0;
        // SAFETY: the pointer leads to as much room as the number says, and nobody else has it. Clause `taken`: the
        // call writes there what it has taken, and nothing else.
        taken(unsafe {
            raw::synth_raw_queue_take_up_to(self.share.handle(), items.as_mut_ptr(), items.len(), &mut count)
        })?;
        Ok(count)
    }

    /// One try to take a line: the items up to and with the first 10, or N raised items without one. They are at
    /// the front of `line`, and their number is the answer. All of them come by one taking, so no other end's item
    /// lies between them.
    ///
    /// ```
    /// # use synthesis_kernel::queue::{QueueEnd, TakeError};
    /// let mut end = QueueEnd::<64>::new(0)?;
    /// end.try_put(b"one\ntw".map(u64::from).as_slice())?;
    /// let mut line = [0; 64];
    /// assert_eq!(end.try_take_line(&mut line), Ok(4));
    /// assert_eq!(end.try_take_line(&mut line), Err(TakeError::Empty { at: 6 }));
    /// # Ok::<(), Box<dyn std::error::Error>>(())
    /// ```
    ///
    /// # Errors
    ///
    /// Any [`TakeError`]. Nothing was taken then, and `line` is as it was.
    pub fn try_take_line(&mut self, line: &mut [u64; N]) -> Result<usize, TakeError> {
        let mut count = 0;
        // SAFETY: the pointer leads to room for N items, and nobody else has it. Clause `taken`: the call writes the
        // line there, which has at most N items.
        taken(unsafe { raw::synth_raw_queue_try_take_line(self.share.handle(), line.as_mut_ptr(), N, &mut count) })?;
        Ok(count)
    }

    /// Takes items one by one, and ends when there is nothing to take. Another end may take between them.
    ///
    /// ```
    /// # use synthesis_kernel::QueueEnd;
    /// let mut end = QueueEnd::<64>::new(0)?;
    /// end.try_put(&[1, 2, 3])?;
    /// assert!(end.try_iter().eq([1, 2, 3]));
    /// # Ok::<(), Box<dyn std::error::Error>>(())
    /// ```
    pub fn try_iter(&mut self) -> TryIter<'_, N> {
        TryIter { end: self }
    }

    /// How many places the queue has: `N`.
    #[must_use]
    pub const fn capacity(&self) -> usize {
        N
    }

    /// A look for whoever watches the queue.
    ///
    /// ```
    /// # use synthesis_kernel::QueueEnd;
    /// let mut end = QueueEnd::<64>::new(0)?;
    /// end.try_put(&[1, 2, 3])?;
    /// end.try_take()?;
    /// let status = end.look();
    /// assert_eq!((status.tail, status.head, status.raised, status.shut), (1, 3, 2, false));
    /// # Ok::<(), Box<dyn std::error::Error>>(())
    /// ```
    pub fn look(&mut self) -> Status {
        let mut found = raw::QueueStatus::default();
        match raw::synth_raw_queue_look(self.share.handle(), &mut found) {
            raw::OK => Status { tail: found.tail, head: found.head, raised: found.raised, shut: found.shut },
            code => raw::no_such_answer(code),
        }
    }

    /// Shuts the queue for puts, for good; what was put can still be taken. Returns true if it was open, which it does
    /// at one end alone.
    ///
    /// ```
    /// # use synthesis_kernel::queue::{PutError, QueueEnd, TakeError};
    /// let mut end = QueueEnd::<64>::new(0)?;
    /// assert!(end.shut());
    /// assert!(!end.shut());
    /// assert_eq!(end.try_put(&[1]), Err(PutError::Closed));
    /// assert_eq!(end.try_take(), Err(TakeError::Closed));
    /// # Ok::<(), Box<dyn std::error::Error>>(())
    /// ```
    pub fn shut(&mut self) -> bool {
        let mut was_open = false;
        match raw::synth_raw_queue_shut(self.share.handle(), &mut was_open) {
            raw::OK => was_open,
            code => raw::no_such_answer(code),
        }
    }

    /// Closes the queue, and returns what became of its items. If other ends exist, this one comes back.
    ///
    /// ```
    /// # use synthesis_kernel::QueueEnd;
    /// let end = QueueEnd::<64>::new(0)?;
    /// let mut other = end.split()?;
    /// other.try_put(&[1, 2])?;
    /// let end = end.close().unwrap_err().into_inner();
    /// drop(other);
    /// let closed = end.close()?;
    /// assert_eq!((closed.put, closed.taken, closed.left), (2, 0, vec![1, 2]));
    /// # Ok::<(), Box<dyn std::error::Error>>(())
    /// ```
    ///
    /// # Errors
    ///
    /// Another end exists, or was leaked. This one comes back.
    pub fn close(mut self) -> Result<Closed, CloseError<QueueEnd<N>>> {
        let Some(handle) = self.share.whole() else { return Err(CloseError::Open(self)) };
        let mut room = [0; N];
        let mut numbers = raw::Closed::default();
        // SAFETY: the pointer leads to room for N items, and nobody else has it. Clause `closed`: the call writes there
        // what is left, and nothing else.
        match unsafe { raw::synth_raw_queue_close(handle, room.as_mut_ptr(), N, &mut numbers) } {
            raw::OK => {}
            code => raw::no_such_answer(code),
        }
        let left = room[..numbers.left].to_vec();
        Ok(Closed { first: numbers.first, put: numbers.put, taken: numbers.taken, left })
    }
}

/// Takes items one by one: see [`QueueEnd::try_iter`].
#[derive(Debug)]
pub struct TryIter<'end, const N: usize> {
    end: &'end mut QueueEnd<N>,
}

impl<const N: usize> Iterator for TryIter<'_, N> {
    type Item = u64;

    fn next(&mut self) -> Option<u64> {
        self.end.take().ok()
    }
}
