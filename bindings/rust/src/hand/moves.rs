//! Moves: an element that the hand holds gets the next place of an element queue.

use super::Hand;
use crate::names::{Element, WaitNumber};
use crate::raw;
use crate::words::says;

/// Why an element was not moved. The hand then holds it still, if it held it. The errors are in the order in which
/// they are checked.
#[derive(Clone, Copy, Debug, PartialEq, Eq, Hash)]
#[non_exhaustive]
pub enum MoveError {
    /// The hand doesn't hold the element.
    NotHeld,
    /// The queue has no position left. None comes back.
    Spent,
    /// A notify of the wait queue came since the ticket was read: look again. Only `try_wait_at` answers this.
    Moved {
        /// The number of notifies that was found.
        notifies: u32,
    },
    /// Another hand put an element into the queue first, or made a notify.
    Lost {
        /// The head that was found.
        head: u32,
        /// The number of notifies that was found.
        notifies: u32,
    },
}

says!(MoveError {
    MoveError::NotHeld => "the hand doesn't hold the element",
    MoveError::Spent => "the queue's positions are spent",
    MoveError::Moved { notifies } => "the number of notifies is {notifies}",
    MoveError::Lost { head, notifies } => "another hand moved the head to {head}, notifies {notifies}",
});

/// What a move answers.
fn moved(answer: raw::Moved) -> Result<(), MoveError> {
    match answer.code {
        raw::OK => Ok(()),
        raw::NOT_HELD => Err(MoveError::NotHeld),
        raw::SPENT => Err(MoveError::Spent),
        raw::MOVED => Err(MoveError::Moved { notifies: answer.notifies }),
        raw::LOST => Err(MoveError::Lost { head: answer.head, notifies: answer.notifies }),
        code => raw::no_such_answer(code),
    }
}

impl Hand {
    /// One try to put an element that the hand holds into the ready ring, as the last one.
    ///
    /// ```
    /// # use synthesis_kernel::hand::{Hand, MoveError};
    /// let mut hand = Hand::new()?;
    /// let element = hand.try_free()?;
    /// assert_eq!(hand.try_ready(element), Ok(()));
    /// assert_eq!(hand.try_ready(element), Err(MoveError::NotHeld));
    /// assert_eq!(hand.try_next(), Ok(element));
    /// # Ok::<(), Box<dyn std::error::Error>>(())
    /// ```
    ///
    /// # Errors
    ///
    /// Any [`MoveError`] except `Moved`. The element stays where it was.
    pub fn try_ready(&mut self, element: Element) -> Result<(), MoveError> {
        moved(raw::synth_raw_hand_try_ready(&mut self.share.handle().0, element.raw()))
    }

    /// One try to put an element that the hand holds after the free elements.
    ///
    /// ```
    /// # use synthesis_kernel::Hand;
    /// let mut hand = Hand::new()?;
    /// let element = hand.try_free()?;
    /// hand.try_retire(element)?;
    /// assert!(!hand.holds(element));
    /// # Ok::<(), Box<dyn std::error::Error>>(())
    /// ```
    ///
    /// # Errors
    ///
    /// Any [`MoveError`] except `Moved`. The element stays where it was.
    pub fn try_retire(&mut self, element: Element) -> Result<(), MoveError> {
        moved(raw::synth_raw_hand_try_retire(&mut self.share.handle().0, element.raw()))
    }

    /// One try to put an element that the hand holds into a wait queue; no ticket guards it against a lost wake.
    ///
    /// ```
    /// # use synthesis_kernel::Hand;
    /// # use synthesis_kernel::WaitNumber;
    /// let wait = WaitNumber::new(5).unwrap();
    /// let mut hand = Hand::new()?;
    /// let element = hand.try_free()?;
    /// hand.try_wait(element, wait)?;
    /// assert_eq!(hand.try_wake(wait), Ok(element));
    /// # Ok::<(), Box<dyn std::error::Error>>(())
    /// ```
    ///
    /// # Errors
    ///
    /// Any [`MoveError`] except `Moved`. The element stays where it was.
    pub fn try_wait(&mut self, element: Element, wait: WaitNumber) -> Result<(), MoveError> {
        moved(raw::synth_raw_hand_try_wait(&mut self.share.handle().0, element.raw(), wait.raw()))
    }

    /// A wait queue's number of notifies so far, modulo 2^32: a ticket for a wait. It has to be read before the look
    /// for what the element would wait for.
    ///
    /// ```
    /// # use synthesis_kernel::Hand;
    /// # use synthesis_kernel::WaitNumber;
    /// let wait = WaitNumber::new(5).unwrap();
    /// let mut hand = Hand::new()?;
    /// assert_eq!(hand.ticket(wait), 0);
    /// hand.notify(wait);
    /// assert_eq!(hand.ticket(wait), 1);
    /// # Ok::<(), Box<dyn std::error::Error>>(())
    /// ```
    pub fn ticket(&mut self, wait: WaitNumber) -> u32 {
        let mut ticket = 0;
        match raw::synth_raw_hand_ticket(&mut self.share.handle().0, wait.raw(), &mut ticket) {
            raw::OK => ticket,
            code => raw::no_such_answer(code),
        }
    }

    /// One try to put an element that the hand holds into a wait queue, if its number of notifies is the ticket still.
    /// Lost means that another hand put an element there first, and that the ticket is good still.
    ///
    /// ```
    /// # use synthesis_kernel::hand::{Hand, MoveError};
    /// # use synthesis_kernel::WaitNumber;
    /// let wait = WaitNumber::new(5).unwrap();
    /// let mut hand = Hand::new()?;
    /// let element = hand.try_free()?;
    /// let ticket = hand.ticket(wait);
    /// // Between the look and the wait another hand wakes all.
    /// hand.notify(wait);
    /// assert_eq!(hand.try_wait_at(element, wait, ticket), Err(MoveError::Moved { notifies: 1 }));
    /// assert!(hand.holds(element));
    /// # Ok::<(), Box<dyn std::error::Error>>(())
    /// ```
    ///
    /// # Errors
    ///
    /// Any [`MoveError`]. The element stays where it was.
    pub fn try_wait_at(&mut self, element: Element, wait: WaitNumber, ticket: u32) -> Result<(), MoveError> {
        moved(raw::synth_raw_hand_try_wait_at(&mut self.share.handle().0, element.raw(), wait.raw(), ticket))
    }
}
