//! Gives: an element goes from one hand to another of the same thread.

use super::{Hand, StartError, Started, StateError};
use crate::names::Element;
use crate::words::says;

/// Why an element was not given. The errors are in the order in which they are checked.
#[derive(Clone, Copy, Debug, PartialEq, Eq, Hash)]
#[non_exhaustive]
pub enum GiveError {
    /// The hand doesn't hold the element.
    NotHeld,
    /// The two hands are of two tables.
    OtherTable,
    /// The element's stop bit was set already, so somebody wants the element stopped.
    Stopped,
    /// Another hand cleared the stop bit before the park. The hand holds the element still: the next give may succeed.
    Lost,
    /// Another hand started the element first, so neither of the two holds it.
    Taken,
}

says!(GiveError {
    GiveError::NotHeld => "the hand doesn't hold the element",
    GiveError::OtherTable => "the hands are of two tables",
    GiveError::Stopped => "the element's stop bit is set",
    GiveError::Lost => "another hand cleared the stop bit",
    GiveError::Taken => "another hand has taken the element",
});

impl Hand {
    /// Gives an element that this hand holds to another hand of the same table.
    ///
    /// This is no atomic step: this hand sets the stop bit ([`stop`](Hand::stop)) and parks the element
    /// ([`try_park`](Hand::try_park)), and then `receiver` starts it ([`try_start`](Hand::try_start)). A park or a
    /// start that is `Lost` is made again. Between the park and the start the element is in its stop cell, where any
    /// hand may start it. A stop by another hand meanwhile is undone: the start clears the bit. After each error but
    /// `Taken` all is as it was.
    ///
    /// ```
    /// # use synthesis_kernel::hand::{GiveError, Hand};
    /// # use synthesis_kernel::Processors;
    /// let mut hand = Hand::new()?;
    /// let mut other = hand.split(Processors::NONE)?;
    /// let element = hand.try_free()?;
    /// assert_eq!(hand.give(&mut other, element), Ok(()));
    /// assert!(other.holds(element) && !hand.holds(element));
    /// other.stop(element);
    /// assert_eq!(other.give(&mut hand, element), Err(GiveError::Stopped));
    /// # Ok::<(), Box<dyn std::error::Error>>(())
    /// ```
    ///
    /// # Errors
    ///
    /// Any [`GiveError`], in the order of their list.
    pub fn give(&mut self, receiver: &mut Hand, element: Element) -> Result<(), GiveError> {
        if !self.holds(element) {
            return Err(GiveError::NotHeld);
        }
        if !self.share.is_of_one(&receiver.share) {
            return Err(GiveError::OtherTable);
        }
        if !self.stop(element) {
            return Err(GiveError::Stopped);
        }
        if !self.park(element)? {
            return Err(GiveError::Lost);
        }
        match receiver.start(element) {
            Started::Held => Ok(()),
            Started::NotStopped | Started::Cleared => Err(GiveError::Taken),
        }
    }

    /// `try_park`, again while it is `Lost`: each time another hand has changed the element's state.
    fn park(&mut self, element: Element) -> Result<bool, GiveError> {
        loop {
            match self.try_park(element) {
                Ok(parked) => return Ok(parked),
                Err(StateError::NotHeld) => return Err(GiveError::NotHeld),
                Err(StateError::Lost { .. }) => {}
            }
        }
    }

    /// `try_start`, again while it is `Lost`.
    fn start(&mut self, element: Element) -> Started {
        loop {
            match self.try_start(element) {
                Ok(started) => return started,
                Err(StartError::Lost { .. }) => {}
            }
        }
    }
}
