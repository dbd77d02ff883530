//! Numbers that have a range, and sets of processors.

use crate::words::says;
use std::fmt;
use std::iter::FusedIterator;
use std::marker::PhantomData;
use std::ops::{BitAnd, BitAndAssign, BitOr, BitOrAssign, Not, Range, Sub, SubAssign};

macro_rules! number {
    ($name:ident, $end:literal, $what:literal) => {
        #[doc = concat!("The number of ", $what, ", below ", stringify!($end), ".")]
        #[derive(Clone, Copy, Debug, PartialEq, Eq, PartialOrd, Ord, Hash)]
        pub struct $name {
            number: u8,
        }

        impl $name {
            #[doc = concat!("The one of this number, if it is below ", stringify!($end), ".")]
            #[must_use]
            pub const fn new(number: u8) -> Option<Self> {
                if number < $end { Some($name { number }) } else { None }
            }

            /// The number.
            #[must_use]
            pub const fn number(self) -> u8 {
                self.number
            }

            #[doc = concat!("All ", stringify!($end), " of them, in the order of their numbers.")]
            #[must_use]
            pub fn all() -> All<Self> {
                All { numbers: 0..$end, of: PhantomData }
            }

            /// The number as a call of the library takes it.
            pub(crate) fn raw(self) -> u32 {
                self.number.into()
            }
        }

        impl Iterator for All<$name> {
            type Item = $name;

            fn next(&mut self) -> Option<$name> {
                self.numbers.next().map(|number| $name { number })
            }

            fn size_hint(&self) -> (usize, Option<usize>) {
                self.numbers.size_hint()
            }
        }

        impl DoubleEndedIterator for All<$name> {
            fn next_back(&mut self) -> Option<$name> {
                self.numbers.next_back().map(|number| $name { number })
            }
        }

        impl ExactSizeIterator for All<$name> {}
        impl FusedIterator for All<$name> {}

        /// The number, as an index.
        impl From<$name> for usize {
            fn from(value: $name) -> usize {
                value.number.into()
            }
        }

        impl TryFrom<u8> for $name {
            type Error = OutOfRange;

            fn try_from(number: u8) -> Result<$name, OutOfRange> {
                $name::new(number).ok_or(OutOfRange)
            }
        }

        impl fmt::Display for $name {
            fn fmt(&self, f: &mut fmt::Formatter<'_>) -> fmt::Result {
                self.number.fmt(f)
            }
        }
    };
}

/// All numbers of a kind, in their order: see [`Element::all`].
#[derive(Clone, Debug)]
pub struct All<Number> {
    numbers: Range<u8>,
    of: PhantomData<Number>,
}

/// The number is out of its range.
#[derive(Clone, Copy, Debug, PartialEq, Eq, Hash)]
pub struct OutOfRange;

says!(OutOfRange {
    OutOfRange => "the number is out of its range",
});

number!(Element, 64, "a thread element");
number!(Gauge, 8, "a gauge");
number!(Processor, 8, "a processor");
number!(Signal, 16, "a signal");
number!(WaitNumber, 16, "a wait queue");

/// A set of processors.
///
/// ```
/// use synthesis_kernel::{Processor, Processors};
///
/// let (zero, five) = (Processor::new(0).unwrap(), Processor::new(5).unwrap());
/// let both: Processors = zero | five;
/// assert!(both.contains(five));
/// assert!(both.iter().eq([zero, five]));
/// assert_eq!(Processor::all().collect::<Processors>(), Processors::ALL);
/// assert_eq!(format!("{both:?}"), "{0, 5}");
/// assert_eq!((both - five, both & five, !both | both), (zero.into(), five.into(), Processors::ALL));
/// for processor in both {
///     assert!(processor == zero || processor == five);
/// }
/// ```
#[derive(Clone, Copy, Default, PartialEq, Eq, Hash)]
pub struct Processors {
    mask: u8,
}

/// The processors of a set, in the order of their numbers: see [`Processors::iter`].
#[derive(Clone, Debug)]
pub struct ProcessorsIter {
    left: Processors,
}

impl Processors {
    /// No processor.
    pub const NONE: Processors = Processors { mask: 0 };

    /// All eight.
    pub const ALL: Processors = Processors { mask: u8::MAX };

    /// Whether the set has the processor.
    #[must_use]
    pub const fn contains(self, processor: Processor) -> bool {
        self.mask >> processor.number & 1 == 1
    }

    /// The processors of the set, in the order of their numbers.
    #[must_use]
    pub const fn iter(self) -> ProcessorsIter {
        ProcessorsIter { left: self }
    }

    /// How many processors the set has.
    #[must_use]
    pub const fn len(self) -> usize {
        self.mask.count_ones() as usize
    }

    /// Whether the set has no processor.
    #[must_use]
    pub const fn is_empty(self) -> bool {
        self.mask == 0
    }

    /// Bit p for processor p, as a call of the library takes it.
    pub(crate) fn raw(self) -> u32 {
        self.mask.into()
    }
}

impl ProcessorsIter {
    /// Takes the processor of this number out of those left, if any is left.
    fn take(&mut self, number: u32) -> Option<Processor> {
        let processor = Processor::new(u8::try_from(number).ok()?)?;
        self.left -= processor;
        Some(processor)
    }
}

impl Iterator for ProcessorsIter {
    type Item = Processor;

    fn next(&mut self) -> Option<Processor> {
        // It is 8, and no processor, if none is left.
        self.take(self.left.mask.trailing_zeros())
    }

    fn size_hint(&self) -> (usize, Option<usize>) {
        (self.left.len(), Some(self.left.len()))
    }
}

impl DoubleEndedIterator for ProcessorsIter {
    fn next_back(&mut self) -> Option<Processor> {
        self.take(self.left.mask.checked_ilog2()?)
    }
}

impl ExactSizeIterator for ProcessorsIter {}
impl FusedIterator for ProcessorsIter {}

impl IntoIterator for Processors {
    type Item = Processor;
    type IntoIter = ProcessorsIter;

    fn into_iter(self) -> ProcessorsIter {
        self.iter()
    }
}

impl IntoIterator for &Processors {
    type Item = Processor;
    type IntoIter = ProcessorsIter;

    fn into_iter(self) -> ProcessorsIter {
        self.iter()
    }
}

impl From<Processor> for Processors {
    fn from(processor: Processor) -> Processors {
        Processors { mask: 1 << processor.number }
    }
}

impl FromIterator<Processor> for Processors {
    fn from_iter<I: IntoIterator<Item = Processor>>(processors: I) -> Processors {
        processors.into_iter().fold(Processors::NONE, |set, processor| set | processor)
    }
}

impl Extend<Processor> for Processors {
    fn extend<I: IntoIterator<Item = Processor>>(&mut self, processors: I) {
        *self |= processors.into_iter().collect::<Processors>();
    }
}

impl<P: Into<Processors>> BitOr<P> for Processors {
    type Output = Processors;

    fn bitor(self, other: P) -> Processors {
        Processors { mask: self.mask | other.into().mask }
    }
}

impl<P: Into<Processors>> BitOr<P> for Processor {
    type Output = Processors;

    fn bitor(self, other: P) -> Processors {
        Processors::from(self) | other
    }
}

impl<P: Into<Processors>> BitOrAssign<P> for Processors {
    fn bitor_assign(&mut self, other: P) {
        *self = *self | other;
    }
}

impl<P: Into<Processors>> BitAnd<P> for Processors {
    type Output = Processors;

    fn bitand(self, other: P) -> Processors {
        Processors { mask: self.mask & other.into().mask }
    }
}

impl<P: Into<Processors>> BitAndAssign<P> for Processors {
    fn bitand_assign(&mut self, other: P) {
        *self = *self & other;
    }
}

impl<P: Into<Processors>> Sub<P> for Processors {
    type Output = Processors;

    fn sub(self, other: P) -> Processors {
        Processors { mask: self.mask & !other.into().mask }
    }
}

impl<P: Into<Processors>> SubAssign<P> for Processors {
    fn sub_assign(&mut self, other: P) {
        *self = *self - other;
    }
}

impl Not for Processors {
    type Output = Processors;

    fn not(self) -> Processors {
        Processors { mask: !self.mask }
    }
}

impl fmt::Debug for Processors {
    fn fmt(&self, f: &mut fmt::Formatter<'_>) -> fmt::Result {
        f.debug_set().entries(self.iter().map(Processor::number)).finish()
    }
}

/// The types whose numbers the library returns.
macro_rules! from_raw {
    ($($name:ident),+) => {$(
        impl $name {
            /// The one that a call of the library returned.
            pub(crate) fn from_raw(number: u32) -> $name {
                let value = u8::try_from(number).ok().and_then($name::new);
                value.unwrap_or_else(|| unreachable!(concat!("the library answered {} ", stringify!($name)), number))
            }
        }
    )+};
}

from_raw!(Element, Processor, Signal, WaitNumber);
