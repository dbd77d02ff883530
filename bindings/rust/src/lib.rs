//! Lockless channels, queues, deferred procedures, meters and thread elements whose core is proved.
//!
//! # Channels
//!
//! [`channel()`] is a bounded queue of items of any type, for any number of senders and receivers. Its calls have the
//! names and the errors of [`std::sync::mpsc`]'s, and both halves can be cloned and shared. It has room for a power of
//! two items, at least as many as asked, and at least one.
//!
//! ```
//! use std::thread;
//! use synthesis_kernel::channel;
//!
//! let (sender, receiver) = channel(256);
//! let workers: Vec<_> = (0..3)
//!     .map(|_| {
//!         let receiver = receiver.clone();
//!         thread::spawn(move || receiver.iter().map(|text: String| text.len()).sum::<usize>())
//!     })
//!     .collect();
//! for number in 0..1000 {
//!     sender.send(number.to_string())?;
//! }
//! drop(sender);
//! let lengths: usize = workers.into_iter().map(|worker| worker.join().unwrap()).sum();
//! assert_eq!(lengths, 10 + 90 * 2 + 900 * 3);
//! # Ok::<(), Box<dyn std::error::Error>>(())
//! ```
//!
//! # Batch queues
//!
//! A channel is a [`BatchEnd`]'s queue of 64-bit words, with sleeps. The queue itself takes and gives bursts: a put is
//! one batch, of which no item can be taken before all can, and a taking gets many items by one step.
//!
//! ```
//! use std::thread;
//! use synthesis_kernel::batch::{BatchEnd, TakeError};
//!
//! let mut end = BatchEnd::new(1024)?;
//! let mut putter = end.split()?;
//! let thread = thread::spawn(move || {
//!     for item in 0..100 {
//!         while putter.try_put(&[item, item]).is_err() {}
//!     }
//!     putter.shut();
//! });
//! let (mut items, mut sum) = ([0; 32], 0);
//! loop {
//!     match end.try_take(&mut items) {
//!         Ok(count) => sum += items[..count].iter().sum::<u64>(),
//!         Err(TakeError::Closed) => break,
//!         Err(_) => thread::yield_now(),
//!     }
//! }
//! assert_eq!(sum, 9900);
//! thread.join().unwrap();
//! let closed = end.close()?;
//! assert_eq!((closed.put, closed.taken), (200, 200));
//! # Ok::<(), Box<dyn std::error::Error>>(())
//! ```
//!
//! # What there is
//!
//! | | what it is | limits |
//! |---|---|---|
//! | [`channel()`] | a bounded channel of any type, with sleeps | 1 to 2^24 places; 2^62 items |
//! | [`batch`] | a bounded queue of 64-bit words, put and taken in bursts | 1 to 2^24 places; 2^62 items |
//! | [`queue`] | a claim queue of 64-bit words; a line, up to a 10, is taken whole | 64 or 256 places; 2^32 - 1 items |
//! | [`chain`] | deferred procedures: notes of 16 bits, one runner at a time, no lock | 32 places; 2^32 - 1 notes |
//! | [`meters`] | gauges, a clock and alarms | 8 gauges, 16 alarms; 2^32 - 1 ticks |
//! | [`line`](mod@line) | bytes from one thread to another | 1 to 65,536 places |
//! | [`hand`] | thread elements, for a scheduler | 64 elements, 8 processors, 16 wait queues; 2^32 - 1 moves each |
//! | [`Event`] | an event count: threads that sleep until another has put something | |
//!
//! An object may have 2^43 ends at a time. The library is for 64-bit Linux on x86-64-v2 processors.
//!
//! # Ends
//!
//! Each object except a channel is shared by its ends, each with a handle of its own. An end goes to another thread by
//! a move, and its calls take `&mut`, those that only ask too: the library's calls want a handle for themselves. As no
//! call comes to a handle by `&`, ends are `Sync` as well, so an error that carries one can be any error type. `split`
//! makes one more end by `&`.
//!
//! `close` by the last end returns what became of everything. A dropped end gives its share back to its object, also if
//! its thread panics. So `close` fails only while other ends exist, or if one was leaked, as by
//! [`mem::forget`](std::mem::forget): then the object goes on, and is leaked with it. `split`, `close`, `take_over` and
//! a drop take a lock of the object for a moment, and may allocate or free memory; no other call of an end does.
//!
//! # Order of memory
//!
//! All that a thread did before a put is seen by whoever takes one of its items, so an item may be a pointer. The same
//! holds of a send and the receiving of its item, of a note and its procedure, and of what was done before an element
//! was moved or a tick counted. Each atomic step of a call is sequentially consistent. ThreadSanitizer doesn't see
//! these steps, as the library isn't built by it.
//!
//! # What is proved
//!
//! What each call of the library does to its object is proved, for any number of threads and any schedule: no item,
//! note or element is lost or comes twice, batches come whole and in order, and each error is true. The repository's
//! docs/PROMISES.md says it exactly, and what it leaves open, as that the last end can close its object: this is
//! tested.
//!
//! This crate isn't proved. It is a few lines around each call of the library; the words and the sleeps of channels,
//! [`Event`], and the shares of dropped ends are its own. They are tested, the event by a model over all schedules of a
//! few threads. No proof speaks of the order of memory either: the proofs speak of steps in one order, and the compiler
//! keeps to it.
//!
//! # Progress
//!
//! Each try, a call named `try_`, ends after a bounded number of its own steps, and waits for no other thread. Those of
//! queues may answer `Lost`: another end was first, so the next try may succeed. After an error all is as it was.
//!
//! The queues are lockless, and not lock-free as Herlihy and Shavit define it: while a thread is stopped within its
//! put, nobody gets what was put after it.
//!
//! The `try_` calls of a [`channel`](mod@channel) promise less: they repeat a lost try, wait for a send or a receiving
//! that is under way in their place, and wake threads that sleep, which takes a lock and a system call. An item over 8
//! bytes takes memory, or frees it.
//!
//! # Version
//!
//! A program has one version of this crate, and one copy of its library: Cargo refuses two. A library of a version that
//! doesn't serve this one isn't linked: it lacks a symbol that has the version in its name.
#![deny(missing_docs)]

#[cfg(not(all(target_arch = "x86_64", target_os = "linux", target_pointer_width = "64")))]
compile_error!("the library below synthesis-kernel is for 64-bit Linux on x86-64 processors");

/// The code of README.md is tested.
#[cfg(doctest)]
#[doc = include_str!("../README.md")]
struct Readme;

pub mod batch;
pub mod chain;
pub mod channel;
mod ends;
mod event;
pub mod hand;
pub mod line;
pub mod meters;
mod names;
pub mod queue;
mod raw;
mod words;

pub use batch::BatchEnd;
pub use chain::ChainEnd;
pub use channel::{Receiver, Sender, channel};
pub use ends::{CloseError, JoinError, OutOfMemory, SplitError};
pub use event::{Event, EventTicket};
pub use hand::Hand;
pub use line::{LineIn, LineOut, line};
pub use meters::MeterSeat;
pub use names::{All, Element, Gauge, OutOfRange, Processor, Processors, ProcessorsIter, Signal, WaitNumber};
pub use queue::QueueEnd;
