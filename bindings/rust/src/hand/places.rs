//! The close of a table, and where the elements are then.

use super::Hand;
use crate::ends::CloseError;
use crate::names::{Processor, WaitNumber};
use crate::raw;

/// Where an element is.
#[derive(Clone, Copy, Debug, PartialEq, Eq, Hash)]
pub enum Place {
    /// On this processor.
    Processor(Processor),
    /// In the ready ring.
    Ready,
    /// In this wait queue.
    Wait(WaitNumber),
    /// In its stop cell.
    Stopped,
    /// Among the free elements.
    Free,
    /// In the hand that closed the table.
    Held,
}

/// The elements of a table at its end, each list by the number of the element.
#[derive(Clone, Debug, PartialEq, Eq, Hash)]
pub struct Places {
    /// Where each element is.
    pub places: [Place; 64],
    /// How many steps each element has done.
    pub pcs: [u64; 64],
    /// The pending signals of each element, bit s for signal s.
    pub pending: [u16; 64],
    /// The elements whose stop bit is set, bit e for element e.
    pub stops: u64,
}

impl Place {
    /// The place that a call of the library reported.
    fn from_raw(place: raw::Place) -> Place {
        match place.kind {
            raw::PLACE_PROCESSOR => Place::Processor(Processor::from_raw(place.number)),
            raw::PLACE_READY => Place::Ready,
            raw::PLACE_FREE => Place::Free,
            raw::PLACE_WAIT => Place::Wait(WaitNumber::from_raw(place.number)),
            raw::PLACE_STOPPED => Place::Stopped,
            raw::PLACE_HELD => Place::Held,
            kind => unreachable!("the library returned a place of kind {kind}"),
        }
    }
}

impl Hand {
    /// Closes the table, and returns where each element is. If other hands exist, this one comes back.
    ///
    /// ```
    /// # use synthesis_kernel::hand::{Hand, Place};
    /// let mut hand = Hand::new()?;
    /// let element = hand.try_free()?;
    /// let places = hand.close()?;
    /// assert_eq!(places.places[usize::from(element)], Place::Held);
    /// assert_eq!(places.places[63], Place::Free);
    /// # Ok::<(), Box<dyn std::error::Error>>(())
    /// ```
    ///
    /// # Errors
    ///
    /// Another hand exists, or was leaked. This one comes back.
    pub fn close(mut self) -> Result<Places, CloseError<Hand>> {
        let Some(handle) = self.share.whole() else { return Err(CloseError::Open(self)) };
        let mut found = raw::Places::default();
        match raw::synth_raw_hand_close(&mut handle.0, &mut found) {
            raw::OK => {}
            code => raw::no_such_answer(code),
        }
        let raw::Places { place, pc, pending, stops } = found;
        Ok(Places { places: place.map(Place::from_raw), pcs: pc, pending, stops })
    }
}
