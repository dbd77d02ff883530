//! Meters: gauges, a clock and alarms.

use crate::ends::{CloseError, JoinError, OutOfMemory, Share, SplitError, joined, made};
use crate::names::{Element, Gauge, Signal};
use crate::raw;
use crate::words::says;
use std::array;
use std::iter::{FusedIterator, Take};

/// An end of meters, and its meters: 8 gauges, a clock, and 16 slots for alarms.
///
/// A tick is seen with all that was done before it by whoever finds it. A dropped end gives its share back, so the last
/// end can always close the meters.
///
/// ```
/// use synthesis_kernel::meters::{Alarm, MeterSeat};
/// use synthesis_kernel::{Element, Gauge, Signal};
///
/// let mut seat = MeterSeat::new(0)?;
/// let gauge = Gauge::new(2).unwrap();
/// assert_eq!(seat.tick(gauge, 5), 0);
/// assert_eq!(seat.tick(gauge, 1), 5);
/// let alarm = Alarm { due: 1, element: Element::new(9).unwrap(), signal: Signal::new(3).unwrap() };
/// seat.try_set(alarm)?;
/// assert_eq!(seat.due().count(), 0);
/// assert_eq!(seat.advance(), Ok(1));
/// assert!(seat.due().eq([alarm]));
/// let closed = seat.close()?;
/// assert_eq!((closed.gauges[2], closed.clock, closed.alarms.len()), (6, 1, 0));
/// # Ok::<(), Box<dyn std::error::Error>>(())
/// ```
///
/// It may go to another thread, and be shared, though no call but a split is made by `&`:
///
/// ```
/// fn is_send_and_sync<T: Send + Sync>() {}
/// is_send_and_sync::<synthesis_kernel::MeterSeat>();
/// ```
#[derive(Debug)]
pub struct MeterSeat {
    share: Share<raw::Seat>,
}

/// An alarm: at the tick `due` of the clock this signal is to be given to this element, which is its caller's to do.
#[derive(Clone, Copy, Debug, PartialEq, Eq, Hash)]
pub struct Alarm {
    /// The first tick of the clock at which it is due.
    pub due: u32,
    /// Whom it is for.
    pub element: Element,
    /// The signal that it sends.
    pub signal: Signal,
}

/// The slot of an alarm that was set.
#[derive(Clone, Copy, Debug, PartialEq, Eq, Hash)]
pub struct Slot {
    number: u32,
}

/// Why the clock was not moved on. The errors are in the order in which they are checked.
#[derive(Clone, Copy, Debug, PartialEq, Eq, Hash)]
#[non_exhaustive]
pub enum AdvanceError {
    /// The clock that was loaded is the last tick, 4,294,967,295. It stays there for good.
    Spent,
    /// Another end moved the clock on first.
    Lost {
        /// The clock that was found, past the one that was loaded.
        clock: u32,
    },
}

/// Why an alarm was not set.
#[derive(Clone, Copy, Debug, PartialEq, Eq, Hash)]
#[non_exhaustive]
pub enum SetError {
    /// Each of the 16 slots was loaded and found taken, one after the other.
    NoRoom,
    /// Another end took this slot first, the first one that was found empty.
    Lost {
        /// The slot.
        slot: u32,
    },
}

/// The meters at their end.
#[derive(Clone, Debug, PartialEq, Eq, Hash)]
pub struct Closed {
    /// The gauges.
    pub gauges: [u64; 8],
    /// The clock.
    pub clock: u32,
    /// The alarms that are set, in the order of their slots.
    pub alarms: Vec<Alarm>,
}

says!(AdvanceError {
    AdvanceError::Spent => "no ticks left",
    AdvanceError::Lost { clock } => "lost, clock {clock}",
});

says!(SetError {
    SetError::NoRoom => "no slot is empty",
    SetError::Lost { slot } => "lost, slot {slot}",
});

impl Alarm {
    fn raw(self) -> raw::Alarm {
        raw::Alarm { due: self.due, element: self.element.raw(), signal: self.signal.raw() }
    }

    /// The alarm that a call of the library reported.
    fn from_raw(alarm: raw::Alarm) -> Alarm {
        Alarm { due: alarm.due, element: Element::from_raw(alarm.element), signal: Signal::from_raw(alarm.signal) }
    }
}

impl Slot {
    /// The slot's number, 0 to 15.
    #[must_use]
    pub const fn number(self) -> u32 {
        self.number
    }
}

impl MeterSeat {
    /// Gauges at 0, the clock as given, no alarm, and the only end.
    ///
    /// # Errors
    ///
    /// Memory is refused.
    pub fn new(clock: u32) -> Result<MeterSeat, OutOfMemory> {
        let first = made(|handle| raw::seat_new(clock, handle))?;
        Ok(MeterSeat { share: Share::new(first)? })
    }

    /// A new end, for another thread.
    ///
    /// ```
    /// # use synthesis_kernel::MeterSeat;
    /// let seat = MeterSeat::new(5)?;
    /// let mut other = seat.split()?;
    /// std::thread::spawn(move || other.advance()).join().unwrap()?;
    /// assert_eq!(seat.close()?.clock, 6);
    /// # Ok::<(), Box<dyn std::error::Error>>(())
    /// ```
    ///
    /// # Errors
    ///
    /// The meters have more than 2^43 ends, or memory is refused.
    pub fn split(&self) -> Result<MeterSeat, SplitError> {
        Ok(MeterSeat { share: self.share.split()? })
    }

    /// Joins an end of the same meters to this one. A drop does the same. An end of other meters comes back.
    ///
    /// ```
    /// # use synthesis_kernel::MeterSeat;
    /// let mut seat = MeterSeat::new(0)?;
    /// let other = seat.split()?;
    /// seat.join(other)?;
    /// let stranger = MeterSeat::new(0)?;
    /// assert!(seat.join(stranger).unwrap_err().into_inner().close().is_ok());
    /// # Ok::<(), Box<dyn std::error::Error>>(())
    /// ```
    ///
    /// # Errors
    ///
    /// The end is of other meters. It comes back.
    pub fn join(&mut self, other: MeterSeat) -> Result<(), JoinError<MeterSeat>> {
        joined(self.share.join(other.share), |share| MeterSeat { share })
    }

    /// Adds `amount` to the gauge, modulo 2^64, by one step, and gives the gauge's value before.
    ///
    /// ```
    /// # use synthesis_kernel::MeterSeat;
    /// # use synthesis_kernel::Gauge;
    /// let gauge = Gauge::new(7).unwrap();
    /// let mut seat = MeterSeat::new(0)?;
    /// assert_eq!((seat.tick(gauge, 5), seat.tick(gauge, 1)), (0, 5));
    /// # Ok::<(), Box<dyn std::error::Error>>(())
    /// ```
    pub fn tick(&mut self, gauge: Gauge, amount: u64) -> u64 {
        let mut before = 0;
        match raw::synth_raw_seat_tick(self.share.handle(), gauge.raw(), amount, &mut before) {
            raw::OK => before,
            code => raw::no_such_answer(code),
        }
    }

    /// The value of a gauge, by one load.
    ///
    /// ```
    /// # use synthesis_kernel::{Gauge, MeterSeat};
    /// let gauge = Gauge::new(3).unwrap();
    /// let mut seat = MeterSeat::new(9)?;
    /// seat.tick(gauge, 5);
    /// assert_eq!((seat.gauge(gauge), seat.clock()), (5, 9));
    /// # Ok::<(), Box<dyn std::error::Error>>(())
    /// ```
    pub fn gauge(&mut self, gauge: Gauge) -> u64 {
        let mut value = 0;
        match raw::synth_raw_seat_gauge(self.share.handle(), gauge.raw(), &mut value) {
            raw::OK => value,
            code => raw::no_such_answer(code),
        }
    }

    /// The clock, by one load.
    pub fn clock(&mut self) -> u32 {
        let mut clock = 0;
        match raw::synth_raw_seat_clock(self.share.handle(), &mut clock) {
            raw::OK => clock,
            code => raw::no_such_answer(code),
        }
    }

    /// One try to move the clock on by one tick. Gives the clock after.
    ///
    /// ```
    /// # use synthesis_kernel::meters::{AdvanceError, MeterSeat};
    /// let mut seat = MeterSeat::new(u32::MAX - 1)?;
    /// assert_eq!(seat.advance(), Ok(u32::MAX));
    /// assert_eq!(seat.advance(), Err(AdvanceError::Spent));
    /// # Ok::<(), Box<dyn std::error::Error>>(())
    /// ```
    ///
    /// # Errors
    ///
    /// Any [`AdvanceError`]. This call did not move the clock then.
    pub fn advance(&mut self) -> Result<u32, AdvanceError> {
        let mut clock = 0;
        let answer = raw::synth_raw_seat_advance(self.share.handle(), &mut clock);
        match answer.code {
            raw::OK => Ok(clock),
            raw::SPENT => Err(AdvanceError::Spent),
            raw::LOST => Err(AdvanceError::Lost { clock: answer.head }),
            code => raw::no_such_answer(code),
        }
    }

    /// One try to set an alarm in the first empty slot. Gives the slot, by which the alarm can be cancelled.
    ///
    /// # Errors
    ///
    /// Any [`SetError`]. The alarm is not set then.
    pub fn try_set(&mut self, alarm: Alarm) -> Result<Slot, SetError> {
        let mut number = 0;
        let answer = raw::synth_raw_seat_try_set(self.share.handle(), &alarm.raw(), &mut number);
        match answer.code {
            raw::OK => Ok(Slot { number }),
            raw::NO_ROOM => Err(SetError::NoRoom),
            raw::LOST => Err(SetError::Lost { slot: answer.head }),
            code => raw::no_such_answer(code),
        }
    }

    /// Takes this alarm out of this slot, by one step. Returns true if it was there; otherwise it was fired or
    /// cancelled before, or never was there. Two alarms that are equal can't be distinguished.
    ///
    /// ```
    /// # use synthesis_kernel::meters::{Alarm, MeterSeat};
    /// # use synthesis_kernel::{Element, Signal};
    /// let alarm = Alarm { due: 1, element: Element::new(9).unwrap(), signal: Signal::new(3).unwrap() };
    /// let mut seat = MeterSeat::new(0)?;
    /// let slot = seat.try_set(alarm)?;
    /// assert_eq!(slot.number(), 0);
    /// assert!(seat.cancel(slot, alarm));
    /// assert!(!seat.cancel(slot, alarm));
    /// # Ok::<(), Box<dyn std::error::Error>>(())
    /// ```
    pub fn cancel(&mut self, slot: Slot, alarm: Alarm) -> bool {
        let mut cancelled = false;
        match raw::synth_raw_seat_cancel(self.share.handle(), slot.number, &alarm.raw(), &mut cancelled) {
            raw::OK => cancelled,
            code => raw::no_such_answer(code),
        }
    }

    /// Looks at the clock once, and then takes out each alarm that is due at it, in the order of the slots. One that
    /// another end takes first is passed over.
    ///
    /// ```
    /// # use synthesis_kernel::meters::{Alarm, MeterSeat};
    /// # use synthesis_kernel::{Element, Signal};
    /// let alarm = Alarm { due: 0, element: Element::new(9).unwrap(), signal: Signal::new(3).unwrap() };
    /// let mut seat = MeterSeat::new(0)?;
    /// seat.try_set(alarm)?;
    /// assert!(seat.due().eq([alarm]));
    /// assert_eq!(seat.due().len(), 0);
    /// # Ok::<(), Box<dyn std::error::Error>>(())
    /// ```
    pub fn due(&mut self) -> Due {
        let (mut alarms, mut count) = ([raw::Alarm::default(); 16], 0);
        // SAFETY: the pointer leads to room for as many alarms as the number says, and nobody else has it. Clause
        // `due`: the call writes the alarms there that it has taken out.
        let code =
            unsafe { raw::synth_raw_seat_due(self.share.handle(), alarms.as_mut_ptr(), alarms.len(), &mut count) };
        match code {
            raw::OK => Due { alarms: alarms.into_iter().take(count) },
            code => raw::no_such_answer(code),
        }
    }

    /// Closes the meters, and returns them. If other ends exist, this one comes back.
    ///
    /// ```
    /// # use synthesis_kernel::MeterSeat;
    /// let seat = MeterSeat::new(3)?;
    /// let other = seat.split()?;
    /// let seat = seat.close().unwrap_err().into_inner();
    /// drop(other);
    /// assert_eq!(seat.close()?.clock, 3);
    /// # Ok::<(), Box<dyn std::error::Error>>(())
    /// ```
    ///
    /// # Errors
    ///
    /// Another end exists, or was leaked. This one comes back.
    pub fn close(mut self) -> Result<Closed, CloseError<MeterSeat>> {
        let Some(handle) = self.share.whole() else { return Err(CloseError::Open(self)) };
        let mut numbers = raw::Metered::default();
        match raw::synth_raw_seat_close(handle, &mut numbers) {
            raw::OK => {}
            code => raw::no_such_answer(code),
        }
        let alarms = &numbers.alarm[..numbers.alarms as usize];
        Ok(Closed {
            gauges: numbers.gauges,
            clock: numbers.clock,
            alarms: alarms.iter().copied().map(Alarm::from_raw).collect(),
        })
    }
}

/// The alarms that were due, in the order of their slots: see [`MeterSeat::due`]. They are taken out already.
#[derive(Clone, Debug)]
#[must_use = "the alarms are taken out, and nobody else gets them"]
pub struct Due {
    alarms: Take<array::IntoIter<raw::Alarm, 16>>,
}

impl Iterator for Due {
    type Item = Alarm;

    fn next(&mut self) -> Option<Alarm> {
        self.alarms.next().map(Alarm::from_raw)
    }

    fn size_hint(&self) -> (usize, Option<usize>) {
        self.alarms.size_hint()
    }
}

impl ExactSizeIterator for Due {}
impl FusedIterator for Due {}
