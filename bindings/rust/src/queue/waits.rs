//! A put that sleeps while the queue is full, and a taking that sleeps while it is empty.

use super::{PutError, QueueEnd, TakeError};
use crate::event::Event;
use std::hint;
use std::time::Duration;

/// The events of one queue, on which its producers and its takers sleep. Nothing of it is proved.
///
/// ```
/// use std::thread;
/// use synthesis_kernel::queue::{QueueEnd, QueueEvents, TakeError};
///
/// static EVENTS: QueueEvents = QueueEvents::new();
///
/// let mut end = QueueEnd::<64>::new(0)?;
/// let mut putter = end.split()?;
/// let thread = thread::spawn(move || {
///     for item in 0..1000 {
///         putter.put_wait(item, &EVENTS, None).unwrap();
///     }
///     putter.shut();
///     EVENTS.notify_all();
/// });
/// let mut sum = 0;
/// while let Ok(item) = end.take_wait(&EVENTS, None) {
///     sum += item;
/// }
/// assert_eq!(sum, 499_500);
/// assert_eq!(end.take_wait(&EVENTS, None), Err(TakeError::Closed));
/// # thread.join().unwrap();
/// # Ok::<(), Box<dyn std::error::Error>>(())
/// ```
///
/// A put by another call than `put_wait` is followed by a notify of `items`, and a taking by another call than
/// `take_wait` by one of `places`; notify_one is enough for any number of items. A shut is followed by `notify_all`.
#[derive(Debug, Default)]
pub struct QueueEvents {
    /// Of the threads that wait for an item.
    pub items: Event,
    /// Of the threads that wait for a place.
    pub places: Event,
}

impl QueueEvents {
    /// Events on which nobody waits.
    pub const fn new() -> QueueEvents {
        QueueEvents { items: Event::new(), places: Event::new() }
    }

    /// Wakes all, so that they see that the queue is shut.
    pub fn notify_all(&self) {
        self.items.notify_all();
        self.places.notify_all();
    }
}

impl<const N: usize> QueueEnd<N> {
    /// Puts an item, and sleeps while the queue is full. Returns its position.
    ///
    /// ```
    /// # use std::time::Duration;
    /// # use synthesis_kernel::queue::{PutError, QueueEnd, QueueEvents};
    /// let events = QueueEvents::new();
    /// let mut end = QueueEnd::<64>::new(0)?;
    /// end.try_put(&[7; 64])?;
    /// let limit = Some(Duration::from_millis(1));
    /// assert_eq!(end.put_wait(8, &events, limit), Err(PutError::Full { head: 64, tail: 0 }));
    /// assert_eq!(end.take_wait(&events, limit), Ok(7));
    /// assert_eq!(end.put_wait(8, &events, limit), Ok(64));
    /// # Ok::<(), Box<dyn std::error::Error>>(())
    /// ```
    ///
    /// # Errors
    ///
    /// `Full` if the time is over, or another error of [`try_put`](QueueEnd::try_put) except `Lost`. Nothing was put
    /// then.
    pub fn put_wait(&mut self, item: u64, events: &QueueEvents, limit: Option<Duration>) -> Result<u32, PutError> {
        let put = events.places.wait_for(limit, || match self.put(item) {
            Err(PutError::Full { .. }) => None,
            answer => Some(answer),
        });
        let answer = put.unwrap_or_else(|| self.put(item));
        if answer.is_ok() {
            events.items.notify_one();
        }
        answer
    }

    /// Takes the first item left, and sleeps while there is none.
    ///
    /// # Errors
    ///
    /// `Empty` if the time is over, and `Closed` if nothing will ever come.
    pub fn take_wait(&mut self, events: &QueueEvents, limit: Option<Duration>) -> Result<u64, TakeError> {
        let taken = events.items.wait_for(limit, || match self.take() {
            Err(TakeError::Empty { .. }) => None,
            answer => Some(answer),
        });
        let answer = taken.unwrap_or_else(|| self.take());
        if answer.is_ok() {
            events.places.notify_one();
        }
        answer
    }

    /// Tries to put an item until no other end was first.
    fn put(&mut self, item: u64) -> Result<u32, PutError> {
        loop {
            match self.try_put(&[item]) {
                Err(PutError::Lost { .. }) => hint::spin_loop(),
                answer => return answer,
            }
        }
    }

    /// Tries to take an item until no other end was first.
    pub(super) fn take(&mut self) -> Result<u64, TakeError> {
        loop {
            match self.try_take() {
                Err(TakeError::Lost { .. }) => hint::spin_loop(),
                answer => return answer,
            }
        }
    }
}
