//! Processors, and the steps that elements do there.

use super::Hand;
use crate::names::{Element, Processor};
use crate::raw;
use crate::words::says;

/// Why an element was not put on a processor. The errors are in the order in which they are checked.
#[derive(Clone, Copy, Debug, PartialEq, Eq, Hash)]
#[non_exhaustive]
pub enum OnError {
    /// The hand doesn't hold the element.
    NotHeld,
    /// The hand doesn't serve the processor.
    NotServed,
    /// An element is on the processor.
    Busy,
}

/// Why no element was taken off a processor. The errors are in the order in which they are checked.
#[derive(Clone, Copy, Debug, PartialEq, Eq, Hash)]
#[non_exhaustive]
pub enum OffError {
    /// The hand doesn't serve the processor.
    NotServed,
    /// No element is on the processor.
    Vacant,
}

/// The hand neither holds the element nor has it on a processor.
#[derive(Clone, Copy, Debug, PartialEq, Eq, Hash)]
pub struct NotHeldError;

/// Why a step was not counted. The errors are in the order in which they are checked.
#[derive(Clone, Copy, Debug, PartialEq, Eq, Hash)]
#[non_exhaustive]
pub enum StepError {
    /// The hand neither holds the element nor has it on a processor.
    NotHeld,
    /// The element has done 4,294,967,295 steps.
    Spent,
}

says!(OnError {
    OnError::NotHeld => "the hand doesn't hold the element",
    OnError::NotServed => "the hand doesn't serve the processor",
    OnError::Busy => "an element is on the processor",
});

says!(OffError {
    OffError::NotServed => "the hand doesn't serve the processor",
    OffError::Vacant => "no element is on the processor",
});

says!(NotHeldError {
    NotHeldError => "the hand neither holds the element nor has it on a processor",
});

says!(StepError {
    StepError::NotHeld => "the hand neither holds the element nor has it on a processor",
    StepError::Spent => "the element's steps are spent",
});

impl Hand {
    /// The element that the hand has on the processor.
    ///
    /// ```
    /// # use synthesis_kernel::Hand;
    /// # use synthesis_kernel::Processor;
    /// let processor = Processor::new(0).unwrap();
    /// let mut hand = Hand::new()?;
    /// let element = hand.try_free()?;
    /// assert_eq!(hand.on_processor(processor), None);
    /// hand.on(processor, element)?;
    /// assert_eq!(hand.on_processor(processor), Some(element));
    /// # Ok::<(), Box<dyn std::error::Error>>(())
    /// ```
    pub fn on_processor(&mut self, processor: Processor) -> Option<Element> {
        let mut element = 0;
        match raw::synth_raw_hand_on_processor(&mut self.share.handle().0, processor.raw(), &mut element) {
            raw::OK => Some(Element::from_raw(element)),
            raw::VACANT => None,
            code => raw::no_such_answer(code),
        }
    }

    /// Puts an element that the hand holds on a processor that it serves, by one step.
    ///
    /// ```
    /// # use synthesis_kernel::hand::{Hand, OnError};
    /// # use synthesis_kernel::Processor;
    /// let processor = Processor::new(0).unwrap();
    /// let mut hand = Hand::new()?;
    /// let (one, two) = (hand.try_free()?, hand.try_free()?);
    /// assert_eq!(hand.on(processor, one), Ok(()));
    /// assert_eq!(hand.on(processor, two), Err(OnError::Busy));
    /// # Ok::<(), Box<dyn std::error::Error>>(())
    /// ```
    ///
    /// # Errors
    ///
    /// Any [`OnError`], in the order of their list. The element stays where it was.
    pub fn on(&mut self, processor: Processor, element: Element) -> Result<(), OnError> {
        match raw::synth_raw_hand_on(&mut self.share.handle().0, processor.raw(), element.raw()) {
            raw::OK => Ok(()),
            raw::NOT_HELD => Err(OnError::NotHeld),
            raw::NOT_SERVED => Err(OnError::NotServed),
            raw::BUSY => Err(OnError::Busy),
            code => raw::no_such_answer(code),
        }
    }

    /// Takes the element off a processor that the hand serves, by one step. The hand then holds it.
    ///
    /// ```
    /// # use synthesis_kernel::hand::{Hand, OffError};
    /// # use synthesis_kernel::Processor;
    /// let processor = Processor::new(0).unwrap();
    /// let mut hand = Hand::new()?;
    /// let element = hand.try_free()?;
    /// hand.on(processor, element)?;
    /// assert_eq!(hand.off(processor), Ok(element));
    /// assert_eq!(hand.off(processor), Err(OffError::Vacant));
    /// # Ok::<(), Box<dyn std::error::Error>>(())
    /// ```
    ///
    /// # Errors
    ///
    /// Any [`OffError`], in the order of their list.
    pub fn off(&mut self, processor: Processor) -> Result<Element, OffError> {
        let mut element = 0;
        match raw::synth_raw_hand_off(&mut self.share.handle().0, processor.raw(), &mut element) {
            raw::OK => Ok(Element::from_raw(element)),
            raw::NOT_SERVED => Err(OffError::NotServed),
            raw::VACANT => Err(OffError::Vacant),
            code => raw::no_such_answer(code),
        }
    }

    /// How many steps an element has done that the hand holds or has on a processor.
    ///
    /// # Errors
    ///
    /// The hand neither holds the element nor has it on a processor.
    pub fn pc(&mut self, element: Element) -> Result<u64, NotHeldError> {
        let mut steps = 0;
        match raw::synth_raw_hand_pc(&mut self.share.handle().0, element.raw(), &mut steps) {
            raw::OK => Ok(steps),
            raw::NOT_HELD => Err(NotHeldError),
            code => raw::no_such_answer(code),
        }
    }

    /// Counts one more step of an element that the hand holds or has on a processor, and gives the new number.
    ///
    /// ```
    /// # use synthesis_kernel::Hand;
    /// let mut hand = Hand::new()?;
    /// let element = hand.try_free()?;
    /// assert_eq!(hand.pc(element), Ok(0));
    /// assert_eq!(hand.step_done(element), Ok(1));
    /// assert_eq!(hand.pc(element), Ok(1));
    /// # Ok::<(), Box<dyn std::error::Error>>(())
    /// ```
    ///
    /// # Errors
    ///
    /// Any [`StepError`], in the order of their list. No step is counted then.
    pub fn step_done(&mut self, element: Element) -> Result<u64, StepError> {
        let mut steps = 0;
        match raw::synth_raw_hand_step_done(&mut self.share.handle().0, element.raw(), &mut steps) {
            raw::OK => Ok(steps),
            raw::NOT_HELD => Err(StepError::NotHeld),
            raw::SPENT => Err(StepError::Spent),
            code => raw::no_such_answer(code),
        }
    }
}
