//! Chains of deferred procedures.

use crate::ends::{CloseError, Handle, JoinError, OutOfMemory, Share, SplitError, joined, made};
use crate::raw;
use crate::words::says;
use std::iter::FusedIterator;
use std::{hint, mem};

/// An end of a chain. A note, a number of 16 bits, means a procedure; which one is the program's. Any end may
/// chain notes, and never waits. One end at a time runs them, in the order in which they were chained: the one whose
/// note found nobody running gets a [`Turn`]. So what the procedures work on needs no lock (Massalin and Pu, 1991).
///
/// ```
/// use synthesis_kernel::ChainEnd;
///
/// let mut interrupt = ChainEnd::new(0)?;
/// let mut timer = interrupt.split()?;
/// let mut seen = Vec::new();
/// if let Some(turn) = interrupt.try_chain(10)? {
///     // The end of the timer has no turn now: this one runs its note too.
///     assert!(timer.try_chain(20)?.is_none());
///     for note in turn {
///         seen.push(note);
///     }
/// }
/// assert_eq!(seen, [10, 20]);
/// drop(timer);
/// let closed = interrupt.close()?;
/// assert_eq!((closed.put, closed.run), (2, 2));
/// # Ok::<(), Box<dyn std::error::Error>>(())
/// ```
///
/// All that was done before a note was chained is seen by its procedure, and all that a procedure did by the ones
/// after it. A [`try_chain`](ChainEnd::try_chain) ends after a bounded number of its own steps, and waits for no other
/// thread. Nor does a [`Turn`]: it looks once more for each note that another end chains meanwhile.
///
/// A dropped end gives its share back, so the last end can always close the chain. If it ran notes, another end runs
/// them after [`take_over`](ChainEnd::take_over); until then they stay in the chain, which gets full.
#[derive(Debug)]
pub struct ChainEnd {
    share: Share<ChainHandle>,
}

/// A handle of a chain, and whether its end runs notes.
#[derive(Debug, Default)]
struct ChainHandle {
    raw: raw::Chain,
    runs: bool,
}

impl Handle for ChainHandle {
    fn split(&mut self, other: &mut Self) -> i32 {
        raw::synth_raw_chain_split(&mut self.raw, &mut other.raw)
    }

    fn join(&mut self, other: &mut Self) -> i32 {
        let code = raw::synth_raw_chain_join(&mut self.raw, &mut other.raw);
        if code == raw::OK {
            self.runs |= mem::take(&mut other.runs);
        }
        code
    }

    fn free(&mut self) {
        self.raw.free();
    }

    fn is_plain(&mut self) -> bool {
        !self.runs
    }
}

/// The right and the duty to run the notes of a chain, which its end has. It is an iterator that returns them one by
/// one, each once. The procedure of a note runs before the next note is asked for, so no two of one chain run at once.
///
/// A turn that is dropped early can't run the notes that are left, since only its program knows their procedures. The
/// end keeps the turn: [`ChainEnd::turn`] returns it again. Until then nobody runs notes.
///
/// ```
/// # use synthesis_kernel::ChainEnd;
/// let mut end = ChainEnd::new(0)?;
/// drop(end.try_chain(10)?);
/// assert!(end.try_chain(20)?.is_none());
/// let turn = end.turn().expect("the end still runs notes");
/// assert!(turn.eq([10, 20]));
/// assert!(end.turn().is_none());
/// # Ok::<(), Box<dyn std::error::Error>>(())
/// ```
#[derive(Debug)]
#[must_use = "nobody runs the notes of a chain until its turn is served"]
pub struct Turn<'a> {
    end: &'a mut ChainEnd,
}

/// What a chain had at its end.
#[derive(Clone, Copy, Debug, PartialEq, Eq, Hash)]
pub struct Closed {
    /// How many notes were chained.
    pub put: u32,
    /// How many were run: all of them.
    pub run: u32,
}

/// Why a note was refused. The errors are in the order in which they are checked.
#[derive(Clone, Copy, Debug, PartialEq, Eq, Hash)]
#[non_exhaustive]
pub enum ChainError {
    /// No position is left: the chain takes no more notes.
    Spent,
    /// There was no room for the note: the chain has 32 places.
    Full {
        /// The head that was found.
        head: u32,
        /// The tail that was found after it.
        tail: u32,
    },
    /// Another end chained first. Try again.
    Lost {
        /// The head that was found.
        head: u32,
    },
}

says!(ChainError {
    ChainError::Spent => "no positions left",
    ChainError::Full { head, tail } => "full at head {head}, tail {tail}",
    ChainError::Lost { head } => "lost, head {head}",
});

impl ChainEnd {
    /// An empty chain, whose first position is `first`, by its only end.
    ///
    /// ```
    /// # use synthesis_kernel::chain::{ChainEnd, ChainError};
    /// let mut end = ChainEnd::new(u32::MAX)?;
    /// assert_eq!(end.try_chain(10).unwrap_err(), ChainError::Spent);
    /// # Ok::<(), Box<dyn std::error::Error>>(())
    /// ```
    ///
    /// # Errors
    ///
    /// Memory is refused.
    pub fn new(first: u32) -> Result<ChainEnd, OutOfMemory> {
        let raw = made(|chain| raw::chain_new(first, chain))?;
        Ok(ChainEnd { share: Share::new(ChainHandle { raw, runs: false })? })
    }

    /// A new end, for another thread. It runs no notes.
    ///
    /// ```
    /// # use synthesis_kernel::ChainEnd;
    /// let end = ChainEnd::new(0)?;
    /// let mut other = end.split()?;
    /// std::thread::spawn(move || other.try_chain(10).unwrap().map(Iterator::count)).join().unwrap();
    /// assert_eq!(end.close()?.run, 1);
    /// # Ok::<(), Box<dyn std::error::Error>>(())
    /// ```
    ///
    /// # Errors
    ///
    /// The chain has more than 2^43 ends, or memory is refused.
    pub fn split(&self) -> Result<ChainEnd, SplitError> {
        Ok(ChainEnd { share: self.share.split()? })
    }

    /// Joins another end of the chain to this one. If that one runs notes, this one runs them from now on: see
    /// [`turn`](ChainEnd::turn). An end of another chain comes back.
    ///
    /// ```
    /// # use synthesis_kernel::ChainEnd;
    /// let mut end = ChainEnd::new(0)?;
    /// let mut other = end.split()?;
    /// drop(other.try_chain(10)?);
    /// end.join(other)?;
    /// assert!(end.turn().expect("the other end ran notes").eq([10]));
    /// let stranger = ChainEnd::new(0)?;
    /// assert!(end.join(stranger).unwrap_err().into_inner().close().is_ok());
    /// # Ok::<(), Box<dyn std::error::Error>>(())
    /// ```
    ///
    /// # Errors
    ///
    /// The end is of another chain. It comes back.
    pub fn join(&mut self, other: ChainEnd) -> Result<(), JoinError<ChainEnd>> {
        joined(self.share.join(other.share), |share| ChainEnd { share })
    }

    /// Takes over what dropped ends had. If one of them ran notes, this end runs them from now on: its turn comes back.
    ///
    /// ```
    /// # use synthesis_kernel::ChainEnd;
    /// let mut end = ChainEnd::new(0)?;
    /// let mut other = end.split()?;
    /// drop(other.try_chain(10)?);
    /// drop(other);
    /// assert!(end.try_chain(20)?.is_none());
    /// assert!(end.take_over().expect("the other end ran notes").eq([10, 20]));
    /// # Ok::<(), Box<dyn std::error::Error>>(())
    /// ```
    pub fn take_over(&mut self) -> Option<Turn<'_>> {
        self.share.take_over();
        self.turn()
    }

    /// One try to chain a note. The end that finds nobody running gets the turn. Otherwise the end that runs notes,
    /// which may be this one, is given this note too.
    ///
    /// ```
    /// # use synthesis_kernel::ChainEnd;
    /// let mut end = ChainEnd::new(0)?;
    /// let mut other = end.split()?;
    /// let turn = end.try_chain(10)?.expect("nobody runs notes");
    /// assert!(other.try_chain(20)?.is_none());
    /// assert!(turn.eq([10, 20]));
    /// # Ok::<(), Box<dyn std::error::Error>>(())
    /// ```
    ///
    /// # Errors
    ///
    /// Any [`ChainError`]. The note is not chained then.
    pub fn try_chain(&mut self, note: u16) -> Result<Option<Turn<'_>>, ChainError> {
        let handle = self.share.handle();
        let answer = raw::synth_raw_chain_try_chain(&mut handle.raw, note);
        match answer.code {
            raw::RUN => {
                handle.runs = true;
                Ok(Some(Turn { end: self }))
            }
            raw::LEFT => Ok(None),
            raw::SPENT => Err(ChainError::Spent),
            raw::FULL => Err(ChainError::Full { head: answer.head, tail: answer.tail }),
            raw::LOST => Err(ChainError::Lost { head: answer.head }),
            code => raw::no_such_answer(code),
        }
    }

    /// The turn that the end still has: of a [`Turn`] that was dropped, or of an end that was joined to this one.
    pub fn turn(&mut self) -> Option<Turn<'_>> {
        self.share.handle().runs.then_some(Turn { end: self })
    }

    /// Closes the chain, and returns what became of its notes. The end comes back if other ends exist, or if it runs
    /// notes, which it may have taken over from dropped ends.
    ///
    /// ```
    /// # use synthesis_kernel::{ChainEnd, CloseError};
    /// let mut end = ChainEnd::new(0)?;
    /// drop(end.try_chain(10)?);
    /// let CloseError::Running(mut end) = end.close().unwrap_err() else { panic!() };
    /// end.turn().expect("it runs notes").for_each(drop);
    /// assert_eq!(end.close()?.put, 1);
    /// # Ok::<(), Box<dyn std::error::Error>>(())
    /// ```
    ///
    /// # Errors
    ///
    /// Another end exists, or was leaked, or the end runs notes. It comes back.
    pub fn close(mut self) -> Result<Closed, CloseError<ChainEnd>> {
        // An end that is the last one takes over what all others had. Nobody else has a turn then.
        if self.share.is_last() {
            self.share.take_over();
        }
        if self.share.handle().runs {
            return Err(CloseError::Running(self));
        }
        let Some(handle) = self.share.whole() else { return Err(CloseError::Open(self)) };
        let mut closed = raw::Chained::default();
        match raw::synth_raw_chain_close(&mut handle.raw, &mut closed) {
            raw::OK => Ok(Closed { put: closed.put, run: closed.run }),
            code => raw::no_such_answer(code),
        }
    }
}

impl Iterator for Turn<'_> {
    type Item = u16;

    fn next(&mut self) -> Option<u16> {
        let handle = self.end.share.handle();
        let mut note = 0;
        while handle.runs {
            match raw::synth_raw_chain_next(&mut handle.raw, &mut note) {
                raw::NOTE => return Some(note),
                raw::AGAIN => hint::spin_loop(),
                raw::OK => handle.runs = false,
                code => raw::no_such_answer(code),
            }
        }
        None
    }
}

impl FusedIterator for Turn<'_> {}
