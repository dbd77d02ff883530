//! What both halves of a channel have in common: the queue, and who is asleep.

use super::word::{Word, drop_all, unpack};
use crate::ends::{OutOfMemory, SplitError, made, split_error};
use crate::event::Event;
use crate::raw;
use std::cell::UnsafeCell;
use std::hint;
use std::iter;
use std::marker::PhantomData;
use std::sync::atomic::{AtomicBool, AtomicUsize, Ordering};
use std::sync::{Arc, Mutex, MutexGuard, PoisonError};
use std::thread;
use std::time::Duration;

/// So many short waits come before a sleep, each twice as long as the one before. All take about a microsecond.
const SHORT_WAITS: u32 = 5;

/// So many spins, each twice as long as the one before, come before a call that waits for another one yields.
const SPINS: u32 = 7;

/// What all halves of a channel share. No call takes its lock except a clone, a drop, and a call on a half that another
/// thread uses at the same moment.
pub(super) struct Shared<T> {
    handles: Mutex<Handles>,
    pub(super) capacity: usize,
    /// How many senders and how many receivers exist.
    pub(super) senders: AtomicUsize,
    pub(super) receivers: AtomicUsize,
    /// Receivers sleep on it while the channel is empty.
    pub(super) items: Event,
    /// Senders sleep on it while the channel is full.
    pub(super) room: Event,
    /// The items are in the queue. Neither half of `&'static str`s is one of shorter-lived ones, nor the other way.
    of: PhantomData<*mut T>,
}

/// The handles that no half has.
struct Handles {
    /// The share that no half has.
    rest: raw::Batch,
    /// What threads use that share a half, and find it in use.
    extra: Vec<raw::Batch>,
}

/// A half: a handle, which one call at a time may use.
pub(super) struct Half<T> {
    is_used: AtomicBool,
    handle: UnsafeCell<raw::Batch>,
    pub(super) shared: Arc<Shared<T>>,
}

/// Why no word was put.
#[derive(Clone, Copy, PartialEq, Eq)]
pub(super) enum NotPut {
    /// There was no room, and the first word would have had this position.
    Full {
        head: u64,
    },
    Closed,
}

/// Why no word was taken.
#[derive(Clone, Copy, PartialEq, Eq)]
pub(super) enum NotTaken {
    Empty,
    Closed,
}

impl<T> Shared<T> {
    /// The capacity is a power of two in the range of the library.
    pub(super) fn new(capacity: usize) -> Result<Shared<T>, OutOfMemory> {
        let rest = made(|rest| raw::batch_new(capacity, rest))?;
        Ok(Shared {
            handles: Mutex::new(Handles { rest, extra: Vec::new() }),
            capacity,
            senders: AtomicUsize::new(0),
            receivers: AtomicUsize::new(0),
            items: Event::new(),
            room: Event::new(),
            of: PhantomData,
        })
    }

    fn handles(&self) -> MutexGuard<'_, Handles> {
        // No call of the library unwinds, so what a poisoned lock guards is whole.
        self.handles.lock().unwrap_or_else(PoisonError::into_inner)
    }

    /// A handle for a thread that finds its half in use.
    fn extra(&self) -> Option<raw::Batch> {
        let mut handles = self.handles();
        if let Some(handle) = handles.extra.pop() {
            return Some(handle);
        }
        let mut handle = raw::Batch::default();
        split_error(raw::synth_raw_batch_split(&mut handles.rest, &mut handle)).ok()?;
        Some(handle)
    }
}

/// Looks until there is something, and sleeps on the event after a few short waits, which are cheaper than a sleep if
/// another thread is just at work. `None` if the time is over.
pub(super) fn wait<R>(event: &Event, limit: Option<Duration>, mut look: impl FnMut() -> Option<R>) -> Option<R> {
    for round in 0..SHORT_WAITS {
        let found = look();
        if found.is_some() {
            return found;
        }
        (0..1 << round).for_each(|_| hint::spin_loop());
    }
    event.wait_for(limit, look)
}

/// Waits for a thread that is within a call.
#[derive(Default)]
struct ShortWait {
    spins: u32,
}

impl ShortWait {
    #[cold]
    fn once(&mut self) {
        if self.spins == SPINS {
            // That thread may be preempted.
            thread::yield_now();
        } else {
            (0..1 << self.spins).for_each(|_| hint::spin_loop());
            self.spins += 1;
        }
    }
}

impl<T> Half<T> {
    pub(super) fn new(shared: &Arc<Shared<T>>) -> Result<Half<T>, SplitError> {
        let mut handle = raw::Batch::default();
        split_error(raw::synth_raw_batch_split(&mut shared.handles().rest, &mut handle))?;
        Ok(Half { is_used: AtomicBool::new(false), handle: UnsafeCell::new(handle), shared: Arc::clone(shared) })
    }

    /// Makes a call of the library, by the handle of this half, or by an extra one if another thread uses that.
    #[inline]
    fn call<R>(&self, call: impl FnOnce(&mut raw::Batch) -> R) -> R {
        if self.is_used.swap(true, Ordering::Acquire) {
            return self.call_beside(call);
        }
        // SAFETY: `is_used` was false, so no other thread uses the handle before it is false again, which it is
        // after the call alone. The call doesn't come back here: it is one of the library's. So no two calls use one
        // handle at once, as the header asks.
        let result = call(unsafe { &mut *self.handle.get() });
        self.is_used.store(false, Ordering::Release);
        result
    }

    #[cold]
    fn call_beside<R>(&self, call: impl FnOnce(&mut raw::Batch) -> R) -> R {
        if let Some(mut handle) = self.shared.extra() {
            let result = call(&mut handle);
            self.shared.handles().extra.push(handle);
            return result;
        }
        // Out of memory. The thread that uses the handle is within a call, which ends.
        while self.is_used.swap(true, Ordering::Acquire) {
            thread::yield_now();
        }
        // SAFETY: as above.
        let result = call(unsafe { &mut *self.handle.get() });
        self.is_used.store(false, Ordering::Release);
        result
    }

    /// Puts the words as one batch: all of them or none. Full is exact: at a moment of this call there was no room. So
    /// it waits for a receiver that has taken items and not yet given their places back.
    pub(super) fn put(&self, words: &[Word]) -> Result<(), NotPut> {
        let mut wait = ShortWait::default();
        loop {
            match self.put_now(words) {
                Err(NotPut::Full { head }) if self.has_room(head, words.len()) => wait.once(),
                answer => return answer,
            }
        }
    }

    /// As `put`, without that wait: Full is answered also if places are about to be given back.
    pub(super) fn put_now(&self, words: &[Word]) -> Result<(), NotPut> {
        loop {
            let mut at = raw::Positions::default();
            // SAFETY: the pointer leads to as many words as the number says. Clause `put`: the call only reads them.
            let put =
                |handle: &mut _| unsafe { raw::synth_raw_batch_try_put(handle, words.as_ptr(), words.len(), &mut at) };
            match self.call(put) {
                raw::LOST => hint::spin_loop(),
                code => return put_answer(code, &at),
            }
        }
    }

    /// Puts as many of the first words as there is room for, as one batch. Returns their number. Full is answered also
    /// if places are about to be given back.
    pub(super) fn put_some_now(&self, words: &[Word]) -> Result<usize, NotPut> {
        loop {
            let (mut count, mut at) = (0, raw::Positions::default());
            // SAFETY: the pointer leads to as many words as the number says. Clause `put`: the call only reads them.
            let put = |handle: &mut _| unsafe {
                raw::synth_raw_batch_try_put_some(handle, words.as_ptr(), words.len(), &mut count, &mut at)
            };
            match self.call(put) {
                raw::LOST => hint::spin_loop(),
                code => return put_answer(code, &at).map(|()| count),
            }
        }
    }

    /// Whether so many words fit from this head on, by the items that are taken. The tail never falls. So if this says
    /// no, there was no room either when the head was this one.
    fn has_room(&self, head: u64, count: usize) -> bool {
        // A taking without room takes nothing, and reports the tail.
        let (code, taking) = self.call(|handle| take(handle, &mut []));
        match code {
            raw::SHORT_BUFFER | raw::EMPTY | raw::LOST => {
                head + count as u64 <= taking.at.tail + self.shared.capacity as u64
            }
            // All was taken, and the next put is refused.
            raw::CLOSED => true,
            code => raw::no_such_answer(code),
        }
    }

    /// Takes the oldest words, as many as there are and fit. Returns their number. Empty is exact: at a moment of this
    /// call no place was reserved. So it waits for a sender that has reserved a place and not published its item.
    pub(super) fn take(&self, words: &mut [Word]) -> Result<usize, NotTaken> {
        let mut wait = ShortWait::default();
        loop {
            match self.take_now(words) {
                Err(NotTaken::Empty) if self.len() > 0 => wait.once(),
                answer => return answer,
            }
        }
    }

    /// As `take`, without that wait: Empty is answered also if the oldest item is about to be published.
    pub(super) fn take_now(&self, words: &mut [Word]) -> Result<usize, NotTaken> {
        loop {
            match self.call(|handle| take(handle, words)) {
                (raw::OK, taking) => return Ok(taking.count),
                (raw::LOST, _) => hint::spin_loop(),
                (raw::EMPTY, _) => return Err(NotTaken::Empty),
                (raw::CLOSED, _) => return Err(NotTaken::Closed),
                (code, _) => raw::no_such_answer(code),
            }
        }
    }

    /// What a sender does after a put: it wakes a receiver, or drops what nobody will receive.
    ///
    /// The last receiver counts itself out, shuts the queue, and drops what it can take. While it is held up between
    /// the first two of these, puts succeed. The first sender that finds no receiver then shuts the queue itself: so
    /// each thread has one such put at the most.
    ///
    /// The last receiver may also find an item reserved and not published, and then leaves that one and all after it.
    /// The sender of that item publishes it later, so it finds no receiver here, and drops the rest.
    #[inline]
    pub(super) fn was_put(&self) {
        self.shared.items.notify_one();
        if self.is_without(&self.shared.receivers) {
            self.drop_left();
        }
    }

    /// Whether these halves, all senders or all receivers, are dropped. If so, the queue is shut when this returns. The
    /// last of them shuts it too, but may be held up before it does.
    #[inline]
    pub(super) fn is_without(&self, halves: &AtomicUsize) -> bool {
        let is_without = halves.load(Ordering::SeqCst) == 0;
        if is_without {
            self.shut();
        }
        is_without
    }

    /// Drops the items that nobody will receive, up to one that isn't published.
    #[cold]
    pub(super) fn drop_left(&self) {
        drop_all(iter::from_fn(|| {
            let mut word = [Word::uninit()];
            self.take_now(&mut word).ok()?;
            // SAFETY: clause `taken`: the word was put, so it is that of an item, and no other taking gets it.
            Some(unsafe { unpack::<T>(word[0]) })
        }));
    }

    /// How many items are in the channel, or were a moment ago.
    pub(super) fn len(&self) -> usize {
        let mut count = 0;
        match self.call(|handle| raw::synth_raw_batch_len(handle, &mut count)) {
            raw::OK => usize::try_from(count).unwrap_or(usize::MAX).min(self.shared.capacity),
            code => raw::no_such_answer(code),
        }
    }

    /// Shuts the queue, and wakes all. Each later put is refused, and a taking once all that was put is taken.
    #[cold]
    fn shut(&self) {
        let mut was_open = false;
        self.call(|handle| raw::synth_raw_batch_shut(handle, &mut was_open));
        self.shared.items.notify_all();
        self.shared.room.notify_all();
    }

    /// Counts this half out. If it is the last one of its side, it shuts the queue, and returns true.
    pub(super) fn leaves(&self, halves: &AtomicUsize) -> bool {
        let is_last = halves.fetch_sub(1, Ordering::SeqCst) == 1;
        if is_last {
            #[cfg(test)]
            tests::before_shut();
            self.shut();
        }
        is_last
    }
}

/// What a put answers.
fn put_answer(code: i32, at: &raw::Positions) -> Result<(), NotPut> {
    match code {
        raw::OK => Ok(()),
        raw::FULL => Err(NotPut::Full { head: at.head }),
        raw::CLOSED => Err(NotPut::Closed),
        raw::SPENT => panic!("2^62 items went through the channel"),
        code => raw::no_such_answer(code),
    }
}

/// What a taking reports.
#[derive(Default)]
struct Taking {
    count: usize,
    at: raw::Positions,
}

/// Takes as many words as there are and fit.
fn take(handle: &mut raw::Batch, words: &mut [Word]) -> (i32, Taking) {
    let mut taking = Taking::default();
    let (room, count, at) = (words.len(), &mut taking.count, &mut taking.at);
    // SAFETY: the pointer leads to as much room as the number says, and nobody else has it. Clause `taken`: the call
    // writes the words there that it has taken, from the first one on.
    let code = unsafe { raw::synth_raw_batch_try_take_some(handle, words.as_mut_ptr(), room, count, at) };
    (code, taking)
}

/// A half gives its share back.
impl<T> Drop for Half<T> {
    fn drop(&mut self) {
        raw::synth_raw_batch_join(&mut self.shared.handles().rest, self.handle.get_mut());
    }
}

/// The last half is gone. What is left in the queue is dropped, and then the queue.
impl<T> Drop for Shared<T> {
    fn drop(&mut self) {
        let handles = self.handles.get_mut().unwrap_or_else(PoisonError::into_inner);
        for handle in &mut handles.extra {
            raw::synth_raw_batch_join(&mut handles.rest, handle);
        }
        let rest = Freed(&mut handles.rest);
        drop_all(iter::from_fn(|| {
            let mut word = [Word::uninit()];
            // SAFETY: clause `taken`: the word was put, so it is that of an item, and no other taking gets it.
            (take(rest.0, &mut word).0 == raw::OK).then(|| unsafe { unpack::<T>(word[0]) })
        }));
    }
}

/// A handle that is freed even if an item's drop panics.
struct Freed<'a>(&'a mut raw::Batch);

impl Drop for Freed<'_> {
    fn drop(&mut self) {
        self.0.free();
    }
}

#[cfg(test)]
#[allow(clippy::arc_with_non_send_sync, reason = "it is shared by halves, which are both")]
mod tests {
    use super::{Half, Shared};
    use crate::channel::channel;
    use crate::channel::word::pack;
    use std::cell::RefCell;
    use std::sync::Arc;
    use std::sync::atomic::Ordering::SeqCst;
    use std::thread;

    thread_local! {
        /// What a test does while the last half of one side is held up in its drop.
        static BEFORE_SHUT: RefCell<Option<Box<dyn FnOnce()>>> = const { RefCell::new(None) };
    }

    /// The last half of one side has counted itself out, and has not yet shut the queue.
    pub(super) fn before_shut() {
        if let Some(act) = BEFORE_SHUT.take() {
            act();
        }
    }

    #[test]
    fn sends_end_while_the_last_receiver_is_held_up_in_its_drop() {
        const THREADS: usize = 4;
        let item = &Arc::new(());
        for asks in [false, true] {
            let (sender, receiver) = channel(2);
            let item = Arc::clone(item);
            BEFORE_SHUT.set(Some(Box::new(move || {
                assert!(!asks || sender.is_closed());
                let send_many = || (0..1000).filter(|_| sender.send(Arc::clone(&item)).is_ok()).count();
                let sent: usize = thread::scope(|scope| {
                    let threads = [(); THREADS].map(|()| scope.spawn(send_many));
                    threads.into_iter().map(|thread| thread.join().unwrap()).sum()
                });
                // Each thread has one late send at the most, and none once the channel was found closed.
                assert!(sent <= if asks { 0 } else { THREADS }, "{sent} late sends");
                assert!(asks || sent > 0);
                assert!(sender.is_closed() && sender.is_empty());
            })));
            drop(receiver);
            assert!(BEFORE_SHUT.take().is_none());
        }
        assert_eq!(Arc::strong_count(item), 1);
    }

    #[test]
    fn a_channel_that_is_found_closed_is_disconnected() {
        let (sender, receiver) = channel::<u64>(2);
        BEFORE_SHUT.set(Some(Box::new(move || {
            assert!(receiver.try_recv().unwrap_err().is_empty());
            assert!(receiver.is_closed());
            assert!(receiver.try_recv().unwrap_err().is_disconnected());
        })));
        drop(sender);
        assert!(BEFORE_SHUT.take().is_none());
    }

    #[test]
    fn a_sender_drops_what_it_published_after_the_last_receiver() {
        let shared = Arc::new(Shared::<Arc<()>>::new(4).unwrap());
        let half = Half::new(&shared).unwrap();
        let item = Arc::new(());
        shared.receivers.store(1, SeqCst);
        for count in [2, 3] {
            assert!(half.put(&[pack(Arc::clone(&item))]).is_ok());
            half.was_put();
            assert_eq!((Arc::strong_count(&item), half.len()), (count, count - 1));
        }
        // The receiver counts itself out while this put is under way.
        assert!(half.put(&[pack(Arc::clone(&item))]).is_ok());
        shared.receivers.store(0, SeqCst);
        half.was_put();
        assert_eq!((Arc::strong_count(&item), half.len()), (1, 0));
    }

    #[test]
    fn a_half_in_use_is_passed_by() {
        let shared = Arc::new(Shared::<u64>::new(4).unwrap());
        let half = Half::new(&shared).unwrap();
        half.is_used.store(true, SeqCst);
        for (item, extra) in [(1, 1), (2, 1)] {
            assert!(half.put(&[pack(item)]).is_ok());
            assert_eq!(shared.handles().extra.len(), extra);
        }
        half.is_used.store(false, SeqCst);
        assert_eq!(half.len(), 2);
        assert!(!half.is_used.load(SeqCst));
    }
}
