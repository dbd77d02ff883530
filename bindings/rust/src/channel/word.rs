//! How an item becomes a word of the queue, and an item again.
//!
//! A word is memory that may be uninitialized in part, as an item with padding is, and may have a pointer in it. It is
//! never read as a number, on this side or in the library: it is only copied. So no byte is looked at that has no
//! value, and a pointer comes back as it was.

use std::marker::PhantomData;
use std::mem::{MaybeUninit, align_of, size_of};

/// A word of the queue.
pub(super) type Word = MaybeUninit<u64>;

/// Whether the items of a type are in their words themselves.
const fn is_inline<T>() -> bool {
    size_of::<T>() <= size_of::<Word>() && align_of::<T>() <= align_of::<Word>()
}

const _: () = assert!(is_inline::<Box<u8>>(), "a box is in its word");

/// The word of an item, which has the item from now on.
pub(super) fn pack<T>(item: T) -> Word {
    let mut word = Word::zeroed();
    if is_inline::<T>() {
        // SAFETY: the word has the room and the alignment that an item needs.
        unsafe { word.as_mut_ptr().cast::<T>().write(item) };
    } else {
        // SAFETY: as above, of a box.
        unsafe { word.as_mut_ptr().cast::<Box<T>>().write(Box::new(item)) };
    }
    word
}

/// The item of a word.
///
/// # Safety
///
/// `pack` made the word of an item of this type, and no copy of it is unpacked.
pub(super) unsafe fn unpack<T>(word: Word) -> T {
    if is_inline::<T>() {
        // SAFETY: `pack` wrote an item there, which nobody else has.
        unsafe { word.as_ptr().cast::<T>().read() }
    } else {
        // SAFETY: `pack` wrote a box there, which nobody else has.
        *unsafe { word.as_ptr().cast::<Box<T>>().read() }
    }
}

/// How many words go through the queue at once.
pub(super) const BURST: usize = 32;

/// Words that came out of the queue, and that are given on as items. What is left is dropped with it.
pub(super) struct Burst<T> {
    words: [Word; BURST],
    next: usize,
    end: usize,
    items: PhantomData<T>,
}

impl<T> Burst<T> {
    /// # Safety
    ///
    /// `take` returns how many words it has written to the front of its buffer. Each is of an item of this type, and is
    /// unpacked by nobody else.
    pub(super) unsafe fn take<E>(take: impl FnOnce(&mut [Word; BURST]) -> Result<usize, E>) -> Result<Burst<T>, E> {
        let mut words = [Word::uninit(); BURST];
        let end = take(&mut words)?;
        Ok(Burst { words, next: 0, end, items: PhantomData })
    }
}

impl<T> Iterator for Burst<T> {
    type Item = T;

    fn next(&mut self) -> Option<T> {
        let word = *self.words[..self.end].get(self.next)?;
        self.next += 1;
        // SAFETY: `take` has promised it, and no word is given on twice.
        Some(unsafe { unpack(word) })
    }

    fn size_hint(&self) -> (usize, Option<usize>) {
        (self.end - self.next, Some(self.end - self.next))
    }
}

impl<T> Drop for Burst<T> {
    fn drop(&mut self) {
        drop_all(self);
    }
}

/// Drops all items, those after one whose drop panics too.
pub(super) fn drop_all<T>(items: impl Iterator<Item = T>) {
    struct Rest<I: Iterator>(I);

    impl<I: Iterator> Drop for Rest<I> {
        fn drop(&mut self) {
            self.0.by_ref().for_each(drop);
        }
    }

    Rest(items).0.by_ref().for_each(drop);
}

#[cfg(test)]
mod tests {
    use super::{Burst, Word, is_inline, pack, unpack};
    use std::fmt::Debug;
    use std::sync::Arc;

    /// Items that are one, after a way as words.
    fn come_back<T: Clone + Debug + PartialEq>(item: T) {
        let word = pack(item.clone());
        // SAFETY: it is the word of an item of this type, and no copy of it is unpacked.
        assert_eq!(unsafe { unpack::<T>(word) }, item);
    }

    #[derive(Clone, Debug, PartialEq)]
    #[repr(align(16))]
    struct Aligned;

    #[test]
    fn items_of_each_size_come_back() {
        come_back(());
        come_back(Aligned);
        come_back(true);
        come_back('ä');
        come_back(u8::MAX);
        come_back((1_u8, 2_u16));
        come_back((1_u8, 2_u32));
        come_back(-1.5_f64);
        come_back(u64::MAX);
        come_back(u128::MAX);
        come_back([1_u8; 9]);
        come_back([[7_u64; 16]; 16]);
        come_back("text");
        come_back(String::from("text"));
        come_back(Box::new(5));
        come_back(Some(Box::new(5)));
        come_back(Arc::new([1, 2, 3]));
        assert!(is_inline::<&str>() == (size_of::<&str>() <= 8) && is_inline::<Arc<str>>() == is_inline::<&str>());
        assert!(is_inline::<u64>() && !is_inline::<[u8; 9]>() && !is_inline::<Aligned>());
    }

    #[test]
    fn what_is_left_of_a_burst_is_dropped() {
        let counted = Arc::new(());
        // SAFETY: the two words are of items of this type.
        let burst = unsafe {
            Burst::<Arc<()>>::take(|words| {
                words[0] = pack(Arc::clone(&counted));
                words[1] = pack(Arc::clone(&counted));
                Ok::<usize, ()>(2)
            })
        };
        let mut burst = burst.unwrap();
        assert_eq!((burst.size_hint(), Arc::strong_count(&counted)), ((2, Some(2)), 3));
        drop(burst.next());
        assert_eq!(Arc::strong_count(&counted), 2);
        drop(burst);
        assert_eq!(Arc::strong_count(&counted), 1);
        // SAFETY: there is no word.
        assert_eq!(unsafe { Burst::<Arc<()>>::take(|_: &mut [Word; 32]| Err(7)) }.err(), Some(7));
    }
}
