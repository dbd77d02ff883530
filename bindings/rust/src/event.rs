//! An event count: threads that sleep until another one has put something.

use std::fmt;
use std::mem;
use std::sync::atomic::{AtomicUsize, Ordering::SeqCst};
use std::sync::{Condvar, Mutex, MutexGuard, PoisonError};
use std::time::{Duration, Instant};

/// An event, on which threads sleep while there is nothing for them. A notify that finds nobody waiting costs one load.
///
/// Nothing of it is proved. It works with any condition, and needs no other part of this crate.
///
/// A waiter takes a ticket by [`prepare`](Event::prepare), **then** looks again, and sleeps by the ticket if there was
/// nothing. A notifier puts something first, for all to see. [`wait_for`](Event::wait_for) does the waiter's part:
///
/// ```
/// use std::sync::atomic::{AtomicBool, Ordering::SeqCst};
/// use std::thread;
/// use synthesis_kernel::Event;
///
/// static READY: AtomicBool = AtomicBool::new(false);
/// static EVENT: Event = Event::new();
///
/// let thread = thread::spawn(|| EVENT.wait_for(None, || READY.load(SeqCst).then_some(7)));
/// READY.store(true, SeqCst);
/// EVENT.notify_one();
/// assert_eq!(thread.join().unwrap(), Some(7));
/// ```
///
/// The condition is changed and looked at by calls of this crate, by SeqCst atomics, or under one lock that both sides
/// take.
///
/// No wake-up is lost. A ticket is counted before its waiter looks again, and a notifier puts something before it loads
/// the count; these four steps have one order. If the load comes first, the look finds what was put. Otherwise the
/// notify finds the ticket. It then gives one of the tickets that are there a pass: that waiter doesn't sleep, or is
/// woken. A ticket with a pass is counted no more, so the next notify wakes another one, or costs one load. A ticket
/// that is cancelled leaves its pass to others.
///
/// The idea is that of event counts (Reed and Kanodia, 1979) and of Vyukov's eventcount.
pub struct Event {
    /// How many tickets there are. Written under the lock.
    tickets: AtomicUsize,
    /// How many of them no notify has found. Written under the lock.
    waiters: AtomicUsize,
    notifies: Mutex<Notifies>,
    moved: Condvar,
}

/// There are as many passes as tickets that a notify has found. A pass is for a ticket that is older than the last
/// notify, whichever wants it first.
#[derive(Clone, Copy, Default)]
struct Notifies {
    /// How many notifies found a waiter.
    count: u64,
    /// The count at the last one that woke all. A ticket that is older than this is one no more.
    of_all: u64,
    passes: usize,
}

/// A place among those who wait on an event. Look at the condition once more while you have it; then drop it if there
/// was something, and [`wait`](EventTicket::wait) if there was nothing.
///
/// ```
/// use synthesis_kernel::Event;
///
/// let event = Event::new();
/// let ticket = event.prepare();
/// event.notify_one();
/// ticket.wait(); // It was notified since the ticket, so it doesn't sleep.
/// event.prepare().cancel();
/// ```
#[must_use = "a ticket that is dropped at once announces nobody"]
pub struct EventTicket<'event> {
    event: &'event Event,
    /// The number of notifies at the beginning.
    notifies: u64,
}

impl Event {
    /// An event on which nobody waits.
    #[must_use]
    pub const fn new() -> Event {
        Event {
            tickets: AtomicUsize::new(0),
            waiters: AtomicUsize::new(0),
            notifies: Mutex::new(Notifies { count: 0, of_all: 0, passes: 0 }),
            moved: Condvar::new(),
        }
    }

    /// Announces a waiter. Look again after this.
    ///
    /// ```
    /// # use synthesis_kernel::Event;
    /// # let look = || true;
    /// let event = Event::new();
    /// let ticket = event.prepare();
    /// if look() {
    ///     ticket.cancel();
    /// } else {
    ///     ticket.wait();
    /// }
    /// ```
    pub fn prepare(&self) -> EventTicket<'_> {
        let notifies = self.lock();
        self.tickets.fetch_add(1, SeqCst);
        self.waiters.fetch_add(1, SeqCst);
        EventTicket { event: self, notifies: notifies.count }
    }

    /// Wakes at least one of those who wait. One load, if there are none.
    ///
    /// It is enough if any waiter will do, and if a thread that has waited, and then found something, notifies one
    /// more, as `wait_for` does: one put may make several items visible.
    #[inline]
    pub fn notify_one(&self) {
        if self.waiters.load(SeqCst) != 0 {
            self.pass_one();
        }
    }

    /// Wakes all who wait. One load, if there are none.
    ///
    /// ```
    /// # use synthesis_kernel::Event;
    /// let event = Event::new();
    /// let tickets = [event.prepare(), event.prepare()];
    /// event.notify_all();
    /// tickets.into_iter().for_each(|ticket| ticket.wait());
    /// ```
    #[inline]
    pub fn notify_all(&self) {
        if self.tickets.load(SeqCst) != 0 {
            self.pass_all();
        }
    }

    #[cold]
    fn pass_one(&self) {
        let mut notifies = self.lock();
        if self.waiters.load(SeqCst) != 0 {
            self.waiters.fetch_sub(1, SeqCst);
            notifies.count += 1;
            notifies.passes += 1;
            // Under the lock, so that whoever sleeps now may have the pass.
            self.moved.notify_one();
        }
    }

    #[cold]
    fn pass_all(&self) {
        let mut notifies = self.lock();
        self.tickets.store(0, SeqCst);
        self.waiters.store(0, SeqCst);
        notifies.count += 1;
        *notifies = Notifies { count: notifies.count, of_all: notifies.count, passes: 0 };
        self.moved.notify_all();
    }

    /// Sleeps until `look` finds something, and returns it; or `None` once the time is over. `look` is called twice
    /// before each sleep, and once more after the last one. A thread that has waited, and then found something,
    /// notifies one more. So does one whose look panics after a sleep: its wake-up is passed on.
    ///
    /// ```
    /// # use std::time::Duration;
    /// let event = synthesis_kernel::Event::new();
    /// assert_eq!(event.wait_for(None, || Some(1)), Some(1));
    /// assert_eq!(event.wait_for(Some(Duration::from_millis(1)), || None::<u64>), None);
    /// ```
    #[inline]
    pub fn wait_for<T>(&self, limit: Option<Duration>, mut look: impl FnMut() -> Option<T>) -> Option<T> {
        match look() {
            None => self.wait_longer(limit, look),
            found => found,
        }
    }

    #[cold]
    fn wait_longer<T>(&self, limit: Option<Duration>, mut look: impl FnMut() -> Option<T>) -> Option<T> {
        let deadline = limit.and_then(|limit| Instant::now().checked_add(limit));
        let mut wake = Wake { event: self, is_had: false };
        loop {
            let ticket = self.prepare();
            let found = look();
            if found.is_some() {
                return found;
            }
            let in_time = ticket.sleep(deadline.map(|deadline| deadline.saturating_duration_since(Instant::now())));
            wake.is_had = true;
            let found = look();
            if found.is_some() {
                return found;
            }
            if !in_time {
                wake.is_had = false;
                return None;
            }
        }
    }

    fn lock(&self) -> MutexGuard<'_, Notifies> {
        self.notifies.lock().unwrap_or_else(PoisonError::into_inner)
    }
}

/// The wake-up of a thread that has waited. It is passed on when the thread has found something, or when its look
/// panics: what the wake-up was for may be there still, and another thread can take it.
struct Wake<'event> {
    event: &'event Event,
    is_had: bool,
}

impl Drop for Wake<'_> {
    fn drop(&mut self) {
        if self.is_had {
            self.event.notify_one();
        }
    }
}

impl EventTicket<'_> {
    /// Waits no more. A drop of the ticket does the same.
    pub fn cancel(self) {}

    /// Sleeps until a notify that came after the ticket. Look at the condition again after this.
    pub fn wait(self) {
        self.sleep(None);
    }

    /// The same, for so long at the most. False, if the time was over and no such notify had come.
    ///
    /// ```
    /// # use std::time::Duration;
    /// let event = synthesis_kernel::Event::new();
    /// assert!(!event.prepare().wait_timeout(Duration::from_millis(1)));
    /// ```
    pub fn wait_timeout(self, limit: Duration) -> bool {
        self.sleep(Some(limit))
    }

    fn sleep(self, limit: Option<Duration>) -> bool {
        let (event, number) = (self.event, self.notifies);
        let moved = &event.moved;
        let has_no_pass = |notifies: &mut Notifies| !notifies.is_for(number);
        let mut notifies = match limit {
            None => moved.wait_while(event.lock(), has_no_pass).unwrap_or_else(PoisonError::into_inner),
            Some(limit) => {
                let ended = moved.wait_timeout_while(event.lock(), limit, has_no_pass);
                ended.unwrap_or_else(PoisonError::into_inner).0
            }
        };
        let is_notified = notifies.is_for(number);
        if is_notified && notifies.of_all <= number {
            notifies.passes -= 1;
            event.tickets.fetch_sub(1, SeqCst);
            mem::forget(self);
        }
        is_notified
    }
}

impl Notifies {
    /// Whether a ticket of this number is woken by a notify of all, or may have a pass.
    fn is_for(&self, number: u64) -> bool {
        self.of_all > number || (self.passes > 0 && self.count > number)
    }
}

/// A ticket that isn't slept by any more.
impl Drop for EventTicket<'_> {
    fn drop(&mut self) {
        let event = self.event;
        let mut notifies = event.lock();
        if notifies.of_all > self.notifies {
            return;
        }
        event.tickets.fetch_sub(1, SeqCst);
        if event.waiters.load(SeqCst) == 0 {
            // Each ticket has a pass, this one too.
            notifies.passes -= 1;
            return;
        }
        event.waiters.fetch_sub(1, SeqCst);
        if notifies.passes > 0 {
            // One of them may have been for this ticket: all others may have it.
            notifies.count += 1;
            event.moved.notify_one();
        }
    }
}

impl Default for Event {
    fn default() -> Event {
        Event::new()
    }
}

impl fmt::Debug for Event {
    fn fmt(&self, f: &mut fmt::Formatter<'_>) -> fmt::Result {
        f.debug_struct("Event").field("waiters", &self.tickets.load(SeqCst)).finish_non_exhaustive()
    }
}

impl fmt::Debug for EventTicket<'_> {
    fn fmt(&self, f: &mut fmt::Formatter<'_>) -> fmt::Result {
        f.debug_struct("EventTicket").field("notifies", &self.notifies).finish_non_exhaustive()
    }
}
