//! The half that receives.

use super::errors::{RecvError, RecvTimeoutError, TryRecvError};
use super::half::{Half, NotTaken, wait};
use super::iter::{IntoIter, Iter, TryIter};
use super::word::{BURST, Burst, Word, unpack};
use crate::ends::SplitError;
use std::fmt;
use std::panic::{RefUnwindSafe, UnwindSafe};
use std::sync::Arc;
use std::sync::atomic::Ordering::SeqCst;
use std::time::Duration;

/// The half of a channel that receives. It is cloned for more threads: each item is received once.
///
/// As a [`Sender`](super::Sender), it may be shared by `&` too.
///
/// When the last receiver is dropped, it drops what was not received, and each sender gets its item back as
/// `Disconnected`. A send that another thread makes during this drop may still succeed, once a thread: its item is then
/// dropped.
pub struct Receiver<T> {
    half: Half<T>,
}

// SAFETY: as of a sender, an item goes from one thread to another, and has to be `Send`.
unsafe impl<T: Send> Send for Receiver<T> {}

// SAFETY: as of a sender. Threads that share a receiver get items by value, each one once.
unsafe impl<T: Send> Sync for Receiver<T> {}

// No call that unwinds leaves anything half done.
impl<T> UnwindSafe for Receiver<T> {}
impl<T> RefUnwindSafe for Receiver<T> {}

impl<T> Receiver<T> {
    pub(super) fn new(half: Half<T>) -> Receiver<T> {
        half.shared.receivers.fetch_add(1, SeqCst);
        Receiver { half }
    }

    /// Receives the oldest item, if there is one.
    ///
    /// It never sleeps. It waits only while another thread is within the send of the oldest item.
    ///
    /// ```
    /// # use synthesis_kernel::channel;
    /// # use synthesis_kernel::channel::TryRecvError;
    /// let (sender, receiver) = channel(4);
    /// sender.send("one")?;
    /// assert_eq!(receiver.try_recv(), Ok("one"));
    /// assert_eq!(receiver.try_recv(), Err(TryRecvError::Empty));
    /// drop(sender);
    /// assert_eq!(receiver.try_recv(), Err(TryRecvError::Disconnected));
    /// # Ok::<(), Box<dyn std::error::Error>>(())
    /// ```
    ///
    /// # Errors
    ///
    /// `Empty`: at a moment of the call the channel was empty. `Disconnected`: it is, and all senders were dropped.
    pub fn try_recv(&self) -> Result<T, TryRecvError> {
        let item = self.take_by(Half::take)?;
        self.half.shared.room.notify_one();
        Ok(item)
    }

    /// Receives the oldest item, and sleeps while there is none.
    ///
    /// ```
    /// # use synthesis_kernel::channel;
    /// # use synthesis_kernel::channel::RecvError;
    /// let (sender, receiver) = channel(4);
    /// let thread = std::thread::spawn(move || sender.send("one"));
    /// assert_eq!(receiver.recv(), Ok("one"));
    /// thread.join().unwrap()?;
    /// assert_eq!(receiver.recv(), Err(RecvError));
    /// # Ok::<(), Box<dyn std::error::Error>>(())
    /// ```
    ///
    /// # Errors
    ///
    /// The channel is empty, and all senders were dropped.
    pub fn recv(&self) -> Result<T, RecvError> {
        self.recv_for(None).map_err(|_| RecvError)
    }

    /// Receives the oldest item, and sleeps while there is none, for so long at the most.
    ///
    /// ```
    /// # use std::time::Duration;
    /// # use synthesis_kernel::channel;
    /// # use synthesis_kernel::channel::RecvTimeoutError;
    /// let (_sender, receiver) = channel::<u64>(4);
    /// assert_eq!(receiver.recv_timeout(Duration::from_millis(1)), Err(RecvTimeoutError::Timeout));
    /// ```
    ///
    /// # Errors
    ///
    /// `Timeout`: no item could be received in time. None can while the send of the oldest one is under way.
    /// `Disconnected`: the channel is empty, and all senders were dropped.
    pub fn recv_timeout(&self, limit: Duration) -> Result<T, RecvTimeoutError> {
        self.recv_for(Some(limit))
    }

    fn recv_for(&self, limit: Option<Duration>) -> Result<T, RecvTimeoutError> {
        let taken = wait(&self.half.shared.items, limit, || match self.take_by(Half::take_now) {
            Err(NotTaken::Empty) => None,
            answer => Some(answer.ok()),
        });
        match taken {
            Some(Some(item)) => {
                self.half.shared.room.notify_one();
                Ok(item)
            }
            Some(None) => Err(RecvTimeoutError::Disconnected),
            None => Err(RecvTimeoutError::Timeout),
        }
    }

    /// Receives the oldest items, `most` at the most, and appends them to the vector. Returns their number, at least 1,
    /// or 0 if `most` is 0. It waits for no send that is under way, except for that of the oldest item.
    ///
    /// ```
    /// # use synthesis_kernel::channel;
    /// # use synthesis_kernel::channel::TryRecvError;
    /// let (sender, receiver) = channel(8);
    /// sender.send_iter([1, 2, 3])?;
    /// let mut items = Vec::new();
    /// assert_eq!(receiver.try_recv_many(&mut items, 2), Ok(2));
    /// assert_eq!(receiver.try_recv_many(&mut items, 2), Ok(1));
    /// assert_eq!(receiver.try_recv_many(&mut items, 2), Err(TryRecvError::Empty));
    /// assert_eq!(items, [1, 2, 3]);
    /// # Ok::<(), Box<dyn std::error::Error>>(())
    /// ```
    ///
    /// # Errors
    ///
    /// `Empty`: at a moment of the call the channel was empty. `Disconnected`: it is, and all senders were dropped.
    pub fn try_recv_many(&self, items: &mut Vec<T>, most: usize) -> Result<usize, TryRecvError> {
        Ok(self.take_many(items, most, Half::take)?)
    }

    /// As [`try_recv_many`](Receiver::try_recv_many), and sleeps while there is no item.
    ///
    /// ```
    /// # use synthesis_kernel::channel;
    /// let (sender, receiver) = channel(8);
    /// let thread = std::thread::spawn(move || sender.send_iter(0..100));
    /// let mut items = Vec::new();
    /// while receiver.recv_many(&mut items, 32).is_ok() {}
    /// assert!(items.into_iter().eq(0..100));
    /// # thread.join().unwrap().unwrap();
    /// ```
    ///
    /// # Errors
    ///
    /// The channel is empty, and all senders were dropped.
    pub fn recv_many(&self, items: &mut Vec<T>, most: usize) -> Result<usize, RecvError> {
        let taken = wait(&self.half.shared.items, None, || match self.take_many(items, most, Half::take_now) {
            Err(NotTaken::Empty) => None,
            answer => Some(answer.ok()),
        });
        taken.flatten().ok_or(RecvError)
    }

    /// Receives items until none is there.
    ///
    /// ```
    /// # use synthesis_kernel::channel;
    /// let (sender, receiver) = channel(8);
    /// sender.send_iter(0..5)?;
    /// assert!(receiver.try_iter().eq(0..5));
    /// # Ok::<(), Box<dyn std::error::Error>>(())
    /// ```
    #[must_use = "nothing is received before the iterator is used"]
    pub fn try_iter(&self) -> TryIter<'_, T> {
        TryIter { receiver: self }
    }

    /// Receives items until all senders are dropped and no item is left, and sleeps while there is none.
    ///
    /// ```
    /// # use synthesis_kernel::channel;
    /// let (sender, receiver) = channel(8);
    /// sender.send_iter(0..5)?;
    /// drop(sender);
    /// assert!(receiver.iter().eq(0..5));
    /// # Ok::<(), Box<dyn std::error::Error>>(())
    /// ```
    #[must_use = "nothing is received before the iterator is used"]
    pub fn iter(&self) -> Iter<'_, T> {
        Iter { receiver: self }
    }

    /// As a clone, with an error in the place of a panic.
    ///
    /// ```
    /// # use synthesis_kernel::channel;
    /// let (sender, receiver) = channel(8);
    /// let other = receiver.try_clone()?;
    /// drop(receiver);
    /// sender.send(5)?;
    /// assert_eq!(other.recv(), Ok(5));
    /// # Ok::<(), Box<dyn std::error::Error>>(())
    /// ```
    ///
    /// # Errors
    ///
    /// The channel has more than 2^43 halves, or memory is refused.
    pub fn try_clone(&self) -> Result<Receiver<T>, SplitError> {
        Half::new(&self.half.shared).map(Receiver::new)
    }

    /// How many items are in the channel. Those whose send is under way are among them. Others change it meanwhile.
    ///
    /// ```
    /// # use synthesis_kernel::channel;
    /// let (sender, receiver) = channel(4);
    /// sender.send_iter(0..4)?;
    /// assert_eq!((receiver.len(), receiver.is_full(), receiver.capacity()), (4, true, 4));
    /// # Ok::<(), Box<dyn std::error::Error>>(())
    /// ```
    #[must_use]
    pub fn len(&self) -> usize {
        self.half.len()
    }

    /// Whether the channel is empty.
    #[must_use]
    pub fn is_empty(&self) -> bool {
        self.len() == 0
    }

    /// Whether the channel has no room.
    #[must_use]
    pub fn is_full(&self) -> bool {
        self.len() == self.capacity()
    }

    /// For how many items the channel has room.
    #[must_use]
    pub fn capacity(&self) -> usize {
        self.half.shared.capacity
    }

    /// Whether all senders were dropped. Items may still be left, and no others come after this was true.
    ///
    /// ```
    /// # use synthesis_kernel::channel;
    /// let (sender, receiver) = channel(4);
    /// sender.send('x')?;
    /// assert!(!receiver.is_closed());
    /// drop(sender);
    /// assert!(receiver.is_closed());
    /// assert_eq!(receiver.recv(), Ok('x'));
    /// # Ok::<(), Box<dyn std::error::Error>>(())
    /// ```
    #[must_use]
    pub fn is_closed(&self) -> bool {
        self.half.is_without(&self.half.shared.senders)
    }

    /// Whether the two are of one channel.
    ///
    /// ```
    /// # use synthesis_kernel::channel;
    /// let (sender, receiver) = channel::<u8>(8);
    /// assert!(receiver.same_channel(&receiver.clone()));
    /// assert!(!receiver.same_channel(&channel(8).1));
    /// ```
    #[must_use]
    pub fn same_channel(&self, other: &Receiver<T>) -> bool {
        Arc::ptr_eq(&self.half.shared, &other.half.shared)
    }

    fn take_by(&self, take: impl Fn(&Half<T>, &mut [Word]) -> Result<usize, NotTaken>) -> Result<T, NotTaken> {
        let mut word = [Word::uninit()];
        take(&self.half, &mut word)?;
        // SAFETY: clause `taken`: the word was put, so it is that of an item, and no other taking gets it.
        Ok(unsafe { unpack(word[0]) })
    }

    /// Takes many items, in bursts, of which `first` takes the first one.
    fn take_many(&self, items: &mut Vec<T>, most: usize, first: Take<T>) -> Result<usize, NotTaken> {
        let (mut count, mut take) = (0, first);
        while count < most {
            match self.take_burst(most - count, take) {
                Ok(burst) => {
                    count += burst.size_hint().0;
                    items.extend(burst);
                }
                Err(_) if count > 0 => break,
                Err(why) => return Err(why),
            }
            take = Half::take_now;
        }
        Ok(count)
    }

    /// Takes a burst of items, `most` at the most, and wakes a sender.
    fn take_burst(&self, most: usize, take: Take<T>) -> Result<Burst<T>, NotTaken> {
        // SAFETY: clause `taken`: as many words as the taking reports were put, so they are those of items, and no
        // other taking gets them.
        let burst = unsafe { Burst::take(|words| take(&self.half, &mut words[..most.min(BURST)])) }?;
        self.half.shared.room.notify_one();
        Ok(burst)
    }
}

/// How words are taken: with or without a wait for a send that is under way.
type Take<T> = fn(&Half<T>, &mut [Word]) -> Result<usize, NotTaken>;

impl From<NotTaken> for TryRecvError {
    fn from(why: NotTaken) -> TryRecvError {
        match why {
            NotTaken::Empty => TryRecvError::Empty,
            NotTaken::Closed => TryRecvError::Disconnected,
        }
    }
}

/// One more receiver of the channel.
///
/// # Panics
///
/// If memory is refused, or the channel has more than 2^43 halves: see [`Receiver::try_clone`].
impl<T> Clone for Receiver<T> {
    #[track_caller]
    fn clone(&self) -> Receiver<T> {
        match self.try_clone() {
            Ok(receiver) => receiver,
            Err(error) => panic!("no clone of a receiver: {error}"),
        }
    }
}

impl<T> Drop for Receiver<T> {
    fn drop(&mut self) {
        if self.half.leaves(&self.half.shared.receivers) {
            self.half.drop_left();
        }
    }
}

impl<'a, T> IntoIterator for &'a Receiver<T> {
    type Item = T;
    type IntoIter = Iter<'a, T>;

    fn into_iter(self) -> Iter<'a, T> {
        self.iter()
    }
}

impl<T> IntoIterator for Receiver<T> {
    type Item = T;
    type IntoIter = IntoIter<T>;

    fn into_iter(self) -> IntoIter<T> {
        IntoIter { receiver: self }
    }
}

impl<T> fmt::Debug for Receiver<T> {
    fn fmt(&self, f: &mut fmt::Formatter<'_>) -> fmt::Result {
        f.debug_struct("Receiver").finish_non_exhaustive()
    }
}
