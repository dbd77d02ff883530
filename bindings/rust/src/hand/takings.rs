//! Takings: the oldest element of an element queue is then held.

use super::Hand;
use crate::names::{Element, WaitNumber};
use crate::raw;
use crate::words::says;

/// Why an element was not taken.
#[derive(Clone, Copy, Debug, PartialEq, Eq, Hash)]
#[non_exhaustive]
pub enum TakeError {
    /// The first place was not raised: the queue is empty, or a hand has claimed that place and not raised it yet.
    Empty,
    /// Another hand took first.
    Lost {
        /// The tail that was found, past the one that was loaded.
        tail: u32,
    },
}

says!(TakeError {
    TakeError::Empty => "nothing is raised at the tail",
    TakeError::Lost { tail } => "another hand moved the tail to {tail}",
});

/// What a try to take this element answers.
fn taken(answer: raw::Answer, element: u32) -> Result<Element, TakeError> {
    match answer.code {
        raw::OK => Ok(Element::from_raw(element)),
        raw::EMPTY => Err(TakeError::Empty),
        raw::LOST => Err(TakeError::Lost { tail: answer.tail }),
        code => raw::no_such_answer(code),
    }
}

impl Hand {
    /// One try to take the oldest element of the ready ring, which the hand then holds.
    ///
    /// ```
    /// # use synthesis_kernel::hand::{Hand, TakeError};
    /// let mut hand = Hand::new()?;
    /// assert_eq!(hand.try_next(), Err(TakeError::Empty));
    /// let element = hand.try_free()?;
    /// hand.try_ready(element)?;
    /// assert_eq!(hand.try_next(), Ok(element));
    /// # Ok::<(), Box<dyn std::error::Error>>(())
    /// ```
    ///
    /// # Errors
    ///
    /// Any [`TakeError`]. Nothing was taken then.
    pub fn try_next(&mut self) -> Result<Element, TakeError> {
        let mut element = 0;
        let answer = raw::synth_raw_hand_try_next(&mut self.share.handle().0, &mut element);
        taken(answer, element)
    }

    /// One try to take the oldest of the free elements, which the hand then holds.
    ///
    /// ```
    /// # use synthesis_kernel::hand::{Hand, TakeError};
    /// let mut hand = Hand::new()?;
    /// assert_eq!(hand.try_free()?.number(), 0);
    /// assert_eq!(hand.try_free()?.number(), 1);
    /// # Ok::<(), Box<dyn std::error::Error>>(())
    /// ```
    ///
    /// # Errors
    ///
    /// Any [`TakeError`]. Nothing was taken then.
    pub fn try_free(&mut self) -> Result<Element, TakeError> {
        let mut element = 0;
        let answer = raw::synth_raw_hand_try_free(&mut self.share.handle().0, &mut element);
        taken(answer, element)
    }

    /// One try to take the oldest element of a wait queue, which the hand then holds.
    ///
    /// # Errors
    ///
    /// Any [`TakeError`]. Nothing was taken then.
    pub fn try_wake(&mut self, wait: WaitNumber) -> Result<Element, TakeError> {
        let mut element = 0;
        let answer = raw::synth_raw_hand_try_wake(&mut self.share.handle().0, wait.raw(), &mut element);
        taken(answer, element)
    }

    /// Counts one more notify of a wait queue, by one step: no wait by an older ticket succeeds from then on. Returns
    /// the position after the last place that was claimed before, for `try_wake_before`.
    ///
    /// ```
    /// # use synthesis_kernel::Hand;
    /// # use synthesis_kernel::WaitNumber;
    /// let wait = WaitNumber::new(0).unwrap();
    /// let mut hand = Hand::new()?;
    /// let element = hand.try_free()?;
    /// hand.try_wait(element, wait)?;
    /// assert_eq!(hand.notify(wait), 1);
    /// # Ok::<(), Box<dyn std::error::Error>>(())
    /// ```
    pub fn notify(&mut self, wait: WaitNumber) -> u32 {
        let mut head = 0;
        match raw::synth_raw_hand_notify(&mut self.share.handle().0, wait.raw(), &mut head) {
            raw::OK => head,
            code => raw::no_such_answer(code),
        }
    }

    /// One try to take the oldest element of a wait queue, as long as a place is left that was claimed before `head`,
    /// which a notify of this queue returned. `None` if each such place is taken, by this hand or others. `Empty` means
    /// here that the next try may find more. If another hand takes meanwhile, the element may be of a place after
    /// `head`.
    ///
    /// ```
    /// # use synthesis_kernel::{Hand, WaitNumber};
    /// let wait = WaitNumber::new(0).unwrap();
    /// let mut hand = Hand::new()?;
    /// let (one, two) = (hand.try_free()?, hand.try_free()?);
    /// hand.try_wait(one, wait)?;
    /// let head = hand.notify(wait);
    /// hand.try_wait(two, wait)?;
    /// assert_eq!(hand.try_wake_before(wait, head), Ok(Some(one)));
    /// assert_eq!(hand.try_wake_before(wait, head), Ok(None));
    /// # Ok::<(), Box<dyn std::error::Error>>(())
    /// ```
    ///
    /// # Errors
    ///
    /// Any [`TakeError`]. Nothing was taken then.
    pub fn try_wake_before(&mut self, wait: WaitNumber, head: u32) -> Result<Option<Element>, TakeError> {
        let mut element = 0;
        let answer = raw::synth_raw_hand_try_wake_before(&mut self.share.handle().0, wait.raw(), head, &mut element);
        if answer.code == raw::ALL_WOKEN {
            return Ok(None);
        }
        taken(answer, element).map(Some)
    }
}
