//! The half that sends.

use super::errors::{SendError, SendTimeoutError, TrySendError};
use super::half::{Half, NotPut, wait};
use super::word::{BURST, Word, pack, unpack};
use crate::ends::SplitError;
use std::fmt;
use std::panic::{RefUnwindSafe, UnwindSafe};
use std::sync::Arc;
use std::sync::atomic::Ordering::SeqCst;
use std::time::Duration;

/// The half of a channel that sends. It is cloned for more threads.
///
/// A sender may also be shared by `&`, as by [`Arc`](std::sync::Arc), scoped threads or a waker. A call that finds the
/// sender in use by another thread then takes a lock for a moment. A clone for each thread doesn't.
///
/// When the last sender is dropped, receivers still get what was sent, and then `Disconnected`.
///
/// ```
/// # use synthesis_kernel::channel;
/// fn is_send_and_sync<T: Send + Sync>(_: &T) {}
/// let (sender, receiver) = channel::<Box<u32>>(8);
/// is_send_and_sync(&sender);
/// is_send_and_sync(&receiver);
/// ```
///
/// Items have to be `Send`, if a half is to go to another thread:
///
/// ```compile_fail
/// let (sender, _receiver) = synthesis_kernel::channel::<std::rc::Rc<u32>>(8);
/// std::thread::spawn(move || drop(sender));
/// ```
///
/// An item may borrow, and no item that lives for a shorter time can be sent instead:
///
/// ```compile_fail
/// fn shorten<'short>(sender: synthesis_kernel::Sender<&'static str>) -> synthesis_kernel::Sender<&'short str> {
///     sender
/// }
/// ```
pub struct Sender<T> {
    half: Half<T>,
}

// SAFETY: an item goes from the thread of a sender to that of a receiver, or of the last half, and so it has to be
// `Send`. A handle may go to another thread: see `raw`.
unsafe impl<T: Send> Send for Sender<T> {}

// SAFETY: by `&` a half gives no `&` to an item, so items need not be `Sync`. It uses its handle in one call at a time.
unsafe impl<T: Send> Sync for Sender<T> {}

// No call that unwinds leaves anything half done.
impl<T> UnwindSafe for Sender<T> {}
impl<T> RefUnwindSafe for Sender<T> {}

impl<T> Sender<T> {
    pub(super) fn new(half: Half<T>) -> Sender<T> {
        half.shared.senders.fetch_add(1, SeqCst);
        Sender { half }
    }

    /// Sends an item if there is room.
    ///
    /// It never sleeps. It waits only while another thread is within a receiving that is about to make room.
    ///
    /// ```
    /// # use synthesis_kernel::channel;
    /// # use synthesis_kernel::channel::TrySendError;
    /// let (sender, receiver) = channel(1);
    /// assert_eq!(sender.try_send(1), Ok(()));
    /// assert_eq!(sender.try_send(2), Err(TrySendError::Full(2)));
    /// drop(receiver);
    /// assert_eq!(sender.try_send(3), Err(TrySendError::Disconnected(3)));
    /// ```
    ///
    /// # Errors
    ///
    /// The item comes back. `Full`: at a moment of the call there was no room. `Disconnected`: all receivers were
    /// dropped.
    pub fn try_send(&self, item: T) -> Result<(), TrySendError<T>> {
        let word = pack(item);
        let not_put = match self.half.put(&[word]) {
            Ok(()) => {
                self.half.was_put();
                return Ok(());
            }
            Err(not_put) => not_put,
        };
        // SAFETY: the word was packed above. Clause `put`: a refused call puts nothing, so nobody takes the word.
        let item = unsafe { unpack(word) };
        Err(match not_put {
            NotPut::Full { .. } => TrySendError::Full(item),
            NotPut::Closed => TrySendError::Disconnected(item),
        })
    }

    /// Sends an item, and sleeps while there is no room.
    ///
    /// ```
    /// # use synthesis_kernel::channel;
    /// # use synthesis_kernel::channel::SendError;
    /// let (sender, receiver) = channel(1);
    /// assert_eq!(sender.send(1), Ok(()));
    /// drop(receiver);
    /// assert_eq!(sender.send(2), Err(SendError(2)));
    /// ```
    ///
    /// # Errors
    ///
    /// All receivers were dropped. The item comes back.
    pub fn send(&self, item: T) -> Result<(), SendError<T>> {
        self.send_for(item, None).map_err(|error| SendError(error.into_inner()))
    }

    /// Sends an item, and sleeps while there is no room, for so long at the most.
    ///
    /// ```
    /// # use std::time::Duration;
    /// # use synthesis_kernel::channel;
    /// # use synthesis_kernel::channel::SendTimeoutError;
    /// let (sender, receiver) = channel(1);
    /// let limit = Duration::from_millis(1);
    /// assert_eq!(sender.send_timeout(1, limit), Ok(()));
    /// assert_eq!(sender.send_timeout(2, limit), Err(SendTimeoutError::Timeout(2)));
    /// ```
    ///
    /// # Errors
    ///
    /// The item comes back. `Timeout`: no place was given back in time. `Disconnected`: all receivers were dropped.
    pub fn send_timeout(&self, item: T, limit: Duration) -> Result<(), SendTimeoutError<T>> {
        self.send_for(item, Some(limit))
    }

    fn send_for(&self, item: T, limit: Option<Duration>) -> Result<(), SendTimeoutError<T>> {
        let word = pack(item);
        let put = wait(&self.half.shared.room, limit, || match self.half.put_now(&[word]) {
            Err(NotPut::Full { .. }) => None,
            answer => Some(answer.is_ok()),
        });
        if put == Some(true) {
            self.half.was_put();
            return Ok(());
        }
        // SAFETY: the word was packed above. Clause `put`: a refused call puts nothing, so nobody takes the word.
        let item = unsafe { unpack(word) };
        Err(if put.is_none() { SendTimeoutError::Timeout(item) } else { SendTimeoutError::Disconnected(item) })
    }

    /// Sends all items as one batch, if there is room for all. No item of another sender comes between them, and none
    /// of them can be received before all can. More items than the channel has room for are always refused. Items are a
    /// `Vec`, an array, or a slice, of which it makes one.
    ///
    /// ```
    /// # use synthesis_kernel::channel;
    /// # use synthesis_kernel::channel::TrySendError;
    /// let (sender, receiver) = channel(4);
    /// assert_eq!(sender.try_send_many([1, 2, 3]), Ok(()));
    /// assert_eq!(sender.try_send_many([4, 5]), Err(TrySendError::Full(vec![4, 5])));
    /// assert!(receiver.try_iter().eq([1, 2, 3]));
    /// ```
    ///
    /// # Errors
    ///
    /// All items come back. `Full`: at a moment of the call there was no room for all. `Disconnected`: all receivers
    /// were dropped.
    pub fn try_send_many(&self, items: impl Into<Vec<T>>) -> Result<(), TrySendError<Vec<T>>> {
        let items = items.into();
        if items.is_empty() {
            return Ok(());
        }
        if items.len() > self.capacity() {
            return Err(if self.is_closed() { TrySendError::Disconnected(items) } else { TrySendError::Full(items) });
        }
        let words: Vec<Word> = items.into_iter().map(pack).collect();
        let not_put = match self.half.put(&words) {
            Ok(()) => {
                self.half.was_put();
                return Ok(());
            }
            Err(not_put) => not_put,
        };
        let items = unpack_all(&words).collect();
        Err(match not_put {
            NotPut::Full { .. } => TrySendError::Full(items),
            NotPut::Closed => TrySendError::Disconnected(items),
        })
    }

    /// Sends all items in bursts, which takes less time than one by one, and sleeps while there is no room. Items of
    /// other senders may come between two bursts.
    ///
    /// ```
    /// # use synthesis_kernel::channel;
    /// let (sender, receiver) = channel(128);
    /// assert_eq!(sender.send_many(Vec::from_iter(0..100)), Ok(()));
    /// assert!(receiver.try_iter().eq(0..100));
    /// ```
    ///
    /// # Errors
    ///
    /// All receivers were dropped. The items that were not sent come back.
    pub fn send_many(&self, items: impl Into<Vec<T>>) -> Result<(), SendError<Vec<T>>> {
        let mut items = items.into().into_iter();
        while items.len() > 0 {
            let mut words = [Word::uninit(); BURST];
            let packed = words.iter_mut().zip(items.by_ref()).map(|(word, item)| *word = pack(item)).count();
            let left = self.send_words(&words[..packed]);
            if !left.is_empty() {
                return Err(SendError(unpack_all(left).chain(items).collect()));
            }
        }
        Ok(())
    }

    /// Sends words in their order. Returns those that were not sent, if all receivers are dropped.
    fn send_words<'words>(&self, mut words: &'words [Word]) -> &'words [Word] {
        while !words.is_empty() {
            let put = wait(&self.half.shared.room, None, || match self.half.put_some_now(words) {
                Err(NotPut::Full { .. }) => None,
                answer => Some(answer.ok()),
            });
            let Some(count) = put.flatten() else { break };
            self.half.was_put();
            words = &words[count..];
        }
        words
    }

    /// Sends the items of the iterator one by one, each before the next one is asked for, and sleeps while there is no
    /// room. Returns their number. [`send_many`](Sender::send_many) takes less time for items that are there already.
    ///
    /// ```
    /// # use synthesis_kernel::channel;
    /// let (sender, receiver) = channel(128);
    /// assert_eq!(sender.send_iter(0..100), Ok(100));
    /// assert!(receiver.try_iter().eq(0..100));
    /// ```
    ///
    /// # Errors
    ///
    /// All receivers were dropped. The item that was to be sent next comes back.
    pub fn send_iter<I: IntoIterator<Item = T>>(&self, items: I) -> Result<usize, SendError<T>> {
        let mut sent = 0;
        for item in items {
            self.send(item)?;
            sent += 1;
        }
        Ok(sent)
    }

    /// As a clone, with an error in the place of a panic.
    ///
    /// ```
    /// # use synthesis_kernel::channel;
    /// let (sender, receiver) = channel(8);
    /// let other = sender.try_clone()?;
    /// other.send(5)?;
    /// assert_eq!(receiver.recv(), Ok(5));
    /// # Ok::<(), Box<dyn std::error::Error>>(())
    /// ```
    ///
    /// # Errors
    ///
    /// The channel has more than 2^43 halves, or memory is refused.
    pub fn try_clone(&self) -> Result<Sender<T>, SplitError> {
        Half::new(&self.half.shared).map(Sender::new)
    }

    /// How many items are in the channel. Those whose send is under way are among them. Others change it meanwhile.
    ///
    /// ```
    /// # use synthesis_kernel::channel;
    /// let (sender, _receiver) = channel(4);
    /// sender.send('x')?;
    /// assert_eq!((sender.len(), sender.is_empty(), sender.is_full(), sender.capacity()), (1, false, false, 4));
    /// # Ok::<(), Box<dyn std::error::Error>>(())
    /// ```
    #[must_use]
    pub fn len(&self) -> usize {
        self.half.len()
    }

    /// Whether the channel is empty.
    #[must_use]
    pub fn is_empty(&self) -> bool {
        self.len() == 0
    }

    /// Whether the channel has no room.
    #[must_use]
    pub fn is_full(&self) -> bool {
        self.len() == self.capacity()
    }

    /// For how many items the channel has room.
    #[must_use]
    pub fn capacity(&self) -> usize {
        self.half.shared.capacity
    }

    /// Whether all receivers were dropped. No send succeeds after this was true.
    ///
    /// ```
    /// # use synthesis_kernel::channel;
    /// let (sender, receiver) = channel::<char>(4);
    /// assert!(!sender.is_closed());
    /// drop(receiver);
    /// assert!(sender.is_closed());
    /// ```
    #[must_use]
    pub fn is_closed(&self) -> bool {
        self.half.is_without(&self.half.shared.receivers)
    }

    /// Whether the two are of one channel.
    ///
    /// ```
    /// # use synthesis_kernel::channel;
    /// let (sender, receiver) = channel::<u8>(8);
    /// assert!(sender.same_channel(&sender.clone()));
    /// assert!(!sender.same_channel(&channel(8).0));
    /// ```
    #[must_use]
    pub fn same_channel(&self, other: &Sender<T>) -> bool {
        Arc::ptr_eq(&self.half.shared, &other.half.shared)
    }
}

/// The items of words that were packed and not put.
fn unpack_all<T>(words: &[Word]) -> impl Iterator<Item = T> {
    // SAFETY: its callers packed the words of items of this type. Clause `put`: none of these was put. No word comes
    // twice.
    words.iter().map(|word| unsafe { unpack(*word) })
}

/// One more sender of the channel.
///
/// # Panics
///
/// If memory is refused, or the channel has more than 2^43 halves: see [`Sender::try_clone`].
impl<T> Clone for Sender<T> {
    #[track_caller]
    fn clone(&self) -> Sender<T> {
        match self.try_clone() {
            Ok(sender) => sender,
            Err(error) => panic!("no clone of a sender: {error}"),
        }
    }
}

impl<T> Drop for Sender<T> {
    fn drop(&mut self) {
        self.half.leaves(&self.half.shared.senders);
    }
}

impl<T> fmt::Debug for Sender<T> {
    fn fmt(&self, f: &mut fmt::Formatter<'_>) -> fmt::Result {
        f.debug_struct("Sender").finish_non_exhaustive()
    }
}
