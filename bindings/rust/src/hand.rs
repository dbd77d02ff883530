//! Thread elements: what a scheduler keeps of its threads.

mod giving;
mod moves;
mod places;
mod processors;
mod states;
mod takings;

pub use giving::GiveError;
pub use moves::MoveError;
pub use places::{Place, Places};
pub use processors::{NotHeldError, OffError, OnError, StepError};
pub use states::{Signalled, StartError, Started, StateError, StateWord};
pub use takings::TakeError;

use crate::ends::{self, Handle, JoinError, OutOfMemory, Share, joined};
use crate::names::{Element, Processor, Processors};
use crate::raw;
use crate::words::says;

/// A hand of a table of thread elements, and its table: 64 elements, 8 processors, the ready ring, the free elements
/// and 16 wait queues.
///
/// Each element is in exactly one place: on a processor, in the ready ring, among the free elements, in a wait queue,
/// in its stop cell, or held by a hand. What a hand holds, and what it has put on its processors, no other hand can
/// move. The table runs nothing: what an element means, and its steps, are its caller's.
///
/// A dropped hand gives its share back, so the last hand can always close the table. What it held and served is
/// nobody's then, until another hand calls [`take_over`](Hand::take_over).
///
/// ```
/// use synthesis_kernel::hand::{Hand, Place};
/// use synthesis_kernel::Processor;
///
/// let processor = Processor::new(0).unwrap();
/// let mut hand = Hand::new()?;
/// let element = hand.try_free()?;
/// hand.try_ready(element)?;
/// assert_eq!(hand.try_next(), Ok(element));
/// hand.on(processor, element)?;
/// assert_eq!(hand.step_done(element), Ok(1));
/// assert_eq!(hand.off(processor), Ok(element));
/// hand.try_retire(element)?;
/// let places = hand.close()?;
/// assert_eq!((places.places[0], places.pcs[0]), (Place::Free, 1));
/// # Ok::<(), Box<dyn std::error::Error>>(())
/// ```
///
/// It may go to another thread. All its calls take `&mut`, so it may be shared too, as an error that carries it may
/// have to be:
///
/// ```
/// fn is_send_and_sync<T: Send + Sync>() {}
/// is_send_and_sync::<synthesis_kernel::Hand>();
/// ```
#[derive(Debug)]
pub struct Hand {
    share: Share<HandHandle>,
}

/// A handle of thread elements. It is split without a processor.
#[derive(Debug, Default)]
struct HandHandle(raw::Hand);

impl Handle for HandHandle {
    fn split(&mut self, other: &mut Self) -> i32 {
        raw::synth_raw_hand_split(&mut self.0, Processors::NONE.raw(), &mut other.0)
    }

    fn join(&mut self, other: &mut Self) -> i32 {
        raw::synth_raw_hand_join(&mut self.0, &mut other.0)
    }

    fn free(&mut self) {
        self.0.free();
    }

    fn is_plain(&mut self) -> bool {
        let mut has = false;
        // An empty handle has nothing, and says so by a code.
        for element in Element::all() {
            raw::synth_raw_hand_holds(&mut self.0, element.raw(), &mut has);
            if has {
                return false;
            }
        }
        for processor in Processor::all() {
            raw::synth_raw_hand_serves(&mut self.0, processor.raw(), &mut has);
            if has {
                return false;
            }
        }
        true
    }
}

/// Why a table was not made. The errors are in the order in which they are checked.
#[derive(Clone, Copy, Debug, PartialEq, Eq, Hash)]
#[non_exhaustive]
pub enum NewError {
    /// The first position is over 4,294,967,231: the 64 free elements have no positions then.
    BadFirst,
    /// An allocation was refused.
    OutOfMemory,
}

/// Why a hand was not split. The errors are in the order in which they are checked.
#[derive(Clone, Copy, Debug, PartialEq, Eq, Hash)]
#[non_exhaustive]
pub enum SplitError {
    /// The hand doesn't serve one of the processors.
    NotServed,
    /// An element is on one of the processors.
    Busy,
    /// The table has more than 2^43 hands. Drop some, or join them to others.
    NoShare,
    /// An allocation was refused.
    OutOfMemory,
}

says!(NewError {
    NewError::BadFirst => "the first position is over 4,294,967,231",
    NewError::OutOfMemory => "out of memory",
});

says!(SplitError {
    SplitError::NotServed => "the hand doesn't serve the processor",
    SplitError::Busy => "an element is on the processor",
    SplitError::NoShare => "the table has too many hands",
    SplitError::OutOfMemory => "out of memory",
});

impl Hand {
    /// A table whose elements are all free, in their order, by its only hand, which serves all processors.
    ///
    /// # Errors
    ///
    /// Memory is refused.
    pub fn new() -> Result<Hand, OutOfMemory> {
        match Hand::new_at(0) {
            Ok(hand) => Ok(hand),
            Err(NewError::OutOfMemory) => Err(OutOfMemory),
            Err(NewError::BadFirst) => unreachable!("the first position is 0"),
        }
    }

    /// `new`, with `first`, at most 4,294,967,231, as the first position of each element queue.
    ///
    /// ```
    /// # use synthesis_kernel::hand::{Hand, MoveError, NewError};
    /// assert_eq!(Hand::new_at(u32::MAX).unwrap_err(), NewError::BadFirst);
    /// let mut hand = Hand::new_at(u32::MAX - 64)?;
    /// let element = hand.try_free()?;
    /// assert_eq!(hand.try_retire(element), Err(MoveError::Spent));
    /// # Ok::<(), Box<dyn std::error::Error>>(())
    /// ```
    ///
    /// # Errors
    ///
    /// The first position is over 4,294,967,231, or memory is refused.
    pub fn new_at(first: u32) -> Result<Hand, NewError> {
        let mut handle = raw::Hand::default();
        match raw::hand_new(first, &mut handle) {
            raw::OK => {}
            raw::BAD_NUMBER => return Err(NewError::BadFirst),
            raw::NO_MEMORY => return Err(NewError::OutOfMemory),
            code => raw::no_such_answer(code),
        }
        let share = Share::new_by(HandHandle(handle), |first, hand| split_for(Processors::ALL, first, hand));
        Ok(Hand { share: share.map_err(|OutOfMemory| NewError::OutOfMemory)? })
    }

    /// A new hand, for another thread. It holds nothing, and serves the processors given, which this hand serves no
    /// more.
    ///
    /// ```
    /// # use synthesis_kernel::hand::{Hand, SplitError};
    /// # use synthesis_kernel::{Processor, Processors};
    /// let (two, three) = (Processor::new(2).unwrap(), Processor::new(3).unwrap());
    /// let mut hand = Hand::new()?;
    /// let mut other = hand.split(three)?;
    /// assert!(other.serves(three) && !other.serves(two));
    /// assert_eq!(hand.split(two | three).unwrap_err(), SplitError::NotServed);
    /// assert!(hand.split(Processors::NONE).is_ok());
    /// # Ok::<(), Box<dyn std::error::Error>>(())
    /// ```
    ///
    /// # Errors
    ///
    /// Any [`SplitError`], in the order of their list. All is as it was then.
    pub fn split(&mut self, processors: impl Into<Processors>) -> Result<Hand, SplitError> {
        let processors = processors.into();
        let answer = match self.share.split_by(|hand, other| split_for(processors, hand, other)) {
            // The table has a larger share than a hand.
            Err(raw::NO_SHARE) => {
                self.share.refill()?;
                self.share.split_by(|hand, other| split_for(processors, hand, other))
            }
            answer => answer,
        };
        match answer {
            Ok(share) => Ok(Hand { share }),
            Err(raw::NOT_SERVED) => Err(SplitError::NotServed),
            Err(raw::BUSY) => Err(SplitError::Busy),
            Err(raw::NO_SHARE) => Err(SplitError::NoShare),
            Err(raw::NO_MEMORY) => Err(SplitError::OutOfMemory),
            Err(code) => raw::no_such_answer(code),
        }
    }

    /// Joins a hand of the same table to this one, which then has all that both had: elements, processors, and what is
    /// on them. A hand of another table comes back.
    ///
    /// ```
    /// # use synthesis_kernel::Hand;
    /// # use synthesis_kernel::Processor;
    /// let processor = Processor::new(3).unwrap();
    /// let mut hand = Hand::new()?;
    /// let other = hand.split(processor)?;
    /// hand.join(other)?;
    /// assert!(hand.serves(processor));
    /// let stranger = Hand::new()?;
    /// assert!(hand.join(stranger).unwrap_err().into_inner().close().is_ok());
    /// # Ok::<(), Box<dyn std::error::Error>>(())
    /// ```
    ///
    /// # Errors
    ///
    /// The hand is of another table. It comes back.
    pub fn join(&mut self, other: Hand) -> Result<(), JoinError<Hand>> {
        joined(self.share.join(other.share), |share| Hand { share })
    }

    /// Takes over all that dropped hands had: elements, processors, and what is on them.
    ///
    /// ```
    /// # use synthesis_kernel::Hand;
    /// # use synthesis_kernel::Processor;
    /// let processor = Processor::new(0).unwrap();
    /// let mut hand = Hand::new()?;
    /// let mut other = hand.split(processor)?;
    /// let element = other.try_free()?;
    /// drop(other);
    /// assert!(!hand.holds(element) && !hand.serves(processor));
    /// hand.take_over();
    /// assert!(hand.holds(element) && hand.serves(processor));
    /// # Ok::<(), Box<dyn std::error::Error>>(())
    /// ```
    pub fn take_over(&mut self) {
        self.share.take_over();
    }

    /// Whether the hand holds the element.
    ///
    /// ```
    /// # use synthesis_kernel::Hand;
    /// let mut hand = Hand::new()?;
    /// let element = hand.try_free()?;
    /// assert!(hand.holds(element));
    /// hand.try_ready(element)?;
    /// assert!(!hand.holds(element));
    /// # Ok::<(), Box<dyn std::error::Error>>(())
    /// ```
    pub fn holds(&mut self, element: Element) -> bool {
        let mut held = false;
        match raw::synth_raw_hand_holds(&mut self.share.handle().0, element.raw(), &mut held) {
            raw::OK => held,
            code => raw::no_such_answer(code),
        }
    }

    /// Whether the hand serves the processor.
    pub fn serves(&mut self, processor: Processor) -> bool {
        let mut served = false;
        match raw::synth_raw_hand_serves(&mut self.share.handle().0, processor.raw(), &mut served) {
            raw::OK => served,
            code => raw::no_such_answer(code),
        }
    }
}

/// Splits a handle that serves these processors off another one.
fn split_for(processors: Processors, hand: &mut HandHandle, other: &mut HandHandle) -> i32 {
    raw::synth_raw_hand_split(&mut hand.0, processors.raw(), &mut other.0)
}

impl From<ends::SplitError> for SplitError {
    fn from(error: ends::SplitError) -> SplitError {
        match error {
            ends::SplitError::NoShare => SplitError::NoShare,
            ends::SplitError::OutOfMemory => SplitError::OutOfMemory,
        }
    }
}
