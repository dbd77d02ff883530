//! Stops, stop cells and signals.

use super::Hand;
use crate::names::{Element, Signal};
use crate::raw;
use crate::words::says;

/// The state of an element: its pending signals, its stop bit, and whether it is in its stop cell.
#[derive(Clone, Copy, Debug, PartialEq, Eq, Hash)]
pub struct StateWord {
    word: u32,
}

/// Why an element was not started.
#[derive(Clone, Copy, Debug, PartialEq, Eq, Hash)]
#[non_exhaustive]
pub enum StartError {
    /// Another hand changed the element's state first.
    Lost {
        /// The state that was found.
        found: StateWord,
    },
}

/// Why an element was not parked, or its signals not delivered. The errors are in the order in which they are
/// checked.
#[derive(Clone, Copy, Debug, PartialEq, Eq, Hash)]
#[non_exhaustive]
pub enum StateError {
    /// The hand doesn't hold the element.
    NotHeld,
    /// Another hand changed the element's state first.
    Lost {
        /// The state that was found.
        found: StateWord,
    },
}

/// What a start did.
#[derive(Clone, Copy, Debug, PartialEq, Eq, Hash)]
pub enum Started {
    /// Nothing: the stop bit was clear.
    NotStopped,
    /// The stop bit was cleared. The element wasn't in its stop cell.
    Cleared,
    /// The stop bit was cleared, and the hand holds the element, which was in its stop cell.
    Held,
}

/// What a signal did.
#[derive(Clone, Copy, Debug, PartialEq, Eq, Hash)]
pub enum Signalled {
    /// The signal is pending now.
    Raised,
    /// The signal was pending already.
    Merged,
}

says!(StartError {
    StartError::Lost { found: StateWord { word } } => "another hand changed the state word to {word}",
});

says!(StateError {
    StateError::NotHeld => "the hand doesn't hold the element",
    StateError::Lost { found: StateWord { word } } => "another hand changed the state word to {word}",
});

impl StateWord {
    /// The pending signals, bit s for signal s.
    #[must_use]
    pub fn pending(self) -> u16 {
        (self.word % (1 << 16)) as u16
    }

    /// Whether the stop bit is set.
    #[must_use]
    pub fn is_stopping(self) -> bool {
        self.word >> 16 & 1 == 1
    }

    /// Whether the element is in its stop cell.
    #[must_use]
    pub fn is_parked(self) -> bool {
        self.word >> 17 & 1 == 1
    }
}

/// What a try at the state of an element that has to be held answers.
fn tried(answer: raw::State) -> Result<(), StateError> {
    match answer.code {
        raw::OK => Ok(()),
        raw::NOT_HELD => Err(StateError::NotHeld),
        raw::LOST => Err(StateError::Lost { found: StateWord { word: answer.word } }),
        code => raw::no_such_answer(code),
    }
}

impl Hand {
    /// Sets the stop bit of an element, wherever it is, by one step. Returns true if it was clear.
    ///
    /// ```
    /// # use synthesis_kernel::Hand;
    /// let mut hand = Hand::new()?;
    /// let element = hand.try_free()?;
    /// assert!(hand.stop(element));
    /// assert!(!hand.stop(element));
    /// # Ok::<(), Box<dyn std::error::Error>>(())
    /// ```
    pub fn stop(&mut self, element: Element) -> bool {
        let mut was_clear = false;
        match raw::synth_raw_hand_stop(&mut self.share.handle().0, element.raw(), &mut was_clear) {
            raw::OK => was_clear,
            code => raw::no_such_answer(code),
        }
    }

    /// One try to clear the stop bit of an element, wherever it is. If the element was in its stop cell, the hand
    /// then holds it.
    ///
    /// ```
    /// # use synthesis_kernel::hand::{Hand, Started};
    /// let mut hand = Hand::new()?;
    /// let element = hand.try_free()?;
    /// assert_eq!(hand.try_start(element), Ok(Started::NotStopped));
    /// assert!(hand.stop(element));
    /// assert_eq!(hand.try_park(element), Ok(true));
    /// assert_eq!(hand.try_start(element), Ok(Started::Held));
    /// # Ok::<(), Box<dyn std::error::Error>>(())
    /// ```
    ///
    /// # Errors
    ///
    /// Another hand changed the state of the element first. It stays as that hand left it.
    pub fn try_start(&mut self, element: Element) -> Result<Started, StartError> {
        let mut started = 0;
        let answer = raw::synth_raw_hand_try_start(&mut self.share.handle().0, element.raw(), &mut started);
        match (answer.code, started) {
            (raw::OK, raw::START_NOT_STOPPED) => Ok(Started::NotStopped),
            (raw::OK, raw::START_CLEARED) => Ok(Started::Cleared),
            (raw::OK, raw::START_HELD) => Ok(Started::Held),
            (raw::LOST, _) => Err(StartError::Lost { found: StateWord { word: answer.word } }),
            (code, _) => raw::no_such_answer(code),
        }
    }

    /// One try to put an element that the hand holds into its stop cell, if its stop bit is set. Returns true
    /// if it is there then; if the bit was clear, the hand still holds it.
    ///
    /// ```
    /// # use synthesis_kernel::Hand;
    /// let mut hand = Hand::new()?;
    /// let element = hand.try_free()?;
    /// assert_eq!(hand.try_park(element), Ok(false));
    /// hand.stop(element);
    /// assert_eq!(hand.try_park(element), Ok(true));
    /// assert!(!hand.holds(element));
    /// # Ok::<(), Box<dyn std::error::Error>>(())
    /// ```
    ///
    /// # Errors
    ///
    /// Any [`StateError`]. The hand then holds the element still, if it held it.
    pub fn try_park(&mut self, element: Element) -> Result<bool, StateError> {
        let mut parked = false;
        tried(raw::synth_raw_hand_try_park(&mut self.share.handle().0, element.raw(), &mut parked))?;
        Ok(parked)
    }

    /// Makes a signal of an element pending, wherever the element is, by one step.
    ///
    /// ```
    /// # use synthesis_kernel::hand::{Hand, Signalled};
    /// # use synthesis_kernel::Signal;
    /// let signal = Signal::new(3).unwrap();
    /// let mut hand = Hand::new()?;
    /// let element = hand.try_free()?;
    /// assert_eq!(hand.signal(element, signal), Signalled::Raised);
    /// assert_eq!(hand.signal(element, signal), Signalled::Merged);
    /// assert_eq!(hand.try_deliver(element), Ok(1 << 3));
    /// assert_eq!(hand.try_deliver(element), Ok(0));
    /// # Ok::<(), Box<dyn std::error::Error>>(())
    /// ```
    pub fn signal(&mut self, element: Element, signal: Signal) -> Signalled {
        let mut raised = false;
        match raw::synth_raw_hand_signal(&mut self.share.handle().0, element.raw(), signal.raw(), &mut raised) {
            raw::OK if raised => Signalled::Raised,
            raw::OK => Signalled::Merged,
            code => raw::no_such_answer(code),
        }
    }

    /// The pending signals of an element, wherever it is, by one load: bit s for signal s. They stay pending.
    ///
    /// ```
    /// # use synthesis_kernel::{Hand, Signal};
    /// let mut hand = Hand::new()?;
    /// let element = hand.try_free()?;
    /// hand.signal(element, Signal::new(4).unwrap());
    /// assert_eq!((hand.pending(element), hand.pending(element)), (16, 16));
    /// # Ok::<(), Box<dyn std::error::Error>>(())
    /// ```
    pub fn pending(&mut self, element: Element) -> u16 {
        let mut signals = 0;
        match raw::synth_raw_hand_pending(&mut self.share.handle().0, element.raw(), &mut signals) {
            raw::OK => {
                u16::try_from(signals).unwrap_or_else(|_| unreachable!("the library returned signals {signals}"))
            }
            code => raw::no_such_answer(code),
        }
    }

    /// One try to deliver the pending signals of an element that the hand holds: bit s for signal s. They are pending
    /// no more.
    ///
    /// # Errors
    ///
    /// Any [`StateError`]. No signal is delivered then.
    pub fn try_deliver(&mut self, element: Element) -> Result<u16, StateError> {
        let mut signals = 0;
        tried(raw::synth_raw_hand_try_deliver(&mut self.share.handle().0, element.raw(), &mut signals))?;
        Ok(u16::try_from(signals).unwrap_or_else(|_| unreachable!("the library returned signals {signals}")))
    }
}

#[cfg(test)]
mod tests {
    use super::*;

    #[test]
    fn a_state_that_was_found_is_reported() {
        let states = [0, 1 << 15 | 1, 1 << 16, 1 << 17 | 1 << 16 | 3].map(|word| StateWord { word });
        assert_eq!(states.map(StateWord::pending), [0, 1 << 15 | 1, 0, 3]);
        assert_eq!(states.map(StateWord::is_stopping), [false, false, true, true]);
        assert_eq!(states.map(StateWord::is_parked), [false, false, false, true]);
        assert_eq!(StartError::Lost { found: states[2] }.to_string(), "another hand changed the state word to 65536");
        assert_eq!(StateError::Lost { found: states[1] }.to_string(), "another hand changed the state word to 32769");
    }
}
