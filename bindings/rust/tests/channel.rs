//! Channels from several threads, of items of all kinds, and what becomes of items that nobody receives.

use std::collections::HashSet;
use std::fmt::Debug;
use std::panic::{AssertUnwindSafe, catch_unwind};
use std::sync::Arc;
use std::sync::atomic::{AtomicUsize, Ordering::SeqCst};
use std::thread;
use std::time::{Duration, Instant};
use synthesis_kernel::channel::{
    NewError, RecvError, RecvTimeoutError, SendError, SendTimeoutError, TryRecvError, TrySendError, try_channel,
};
use synthesis_kernel::{Receiver, Sender, channel};

const THREADS: usize = 4;
const ITEMS: usize = 250_000;

/// An item whose drop is counted.
#[derive(Clone, Debug)]
struct Counted<'a> {
    drops: &'a AtomicUsize,
    number: usize,
}

impl Drop for Counted<'_> {
    fn drop(&mut self) {
        self.drops.fetch_add(1, SeqCst);
    }
}

/// Sends the items of one thread, by all ways to send in turn.
fn send_all<T: Debug>(sender: &Sender<T>, thread: usize, item: &impl Fn(usize) -> T) {
    let mut items = (thread..THREADS * ITEMS).step_by(THREADS);
    while let Some(number) = items.next() {
        match number % 3 {
            0 => sender.send(item(number)).unwrap(),
            1 if number % 2 == 0 => {
                assert!(sender.send_iter(items.by_ref().take(10).chain([number]).map(item)).unwrap() > 0)
            }
            1 => sender.send_many(Vec::from_iter(items.by_ref().take(40).chain([number]).map(item))).unwrap(),
            _ => {
                let mut next = item(number);
                while let Err(error) = sender.try_send(next) {
                    next = match sender.send_timeout(error.into_inner(), Duration::from_micros(50)) {
                        Ok(()) => break,
                        Err(error) => error.into_inner(),
                    };
                }
            }
        }
    }
}

/// Receives by all ways to receive in turn, until nothing will come.
fn receive_all<T>(receiver: &Receiver<T>, thread: usize, mut each: impl FnMut(T)) {
    let mut items = Vec::new();
    loop {
        let answer = match thread % 4 {
            0 => receiver.recv().map(&mut each),
            1 => receiver.recv_many(&mut items, 40).map(|count| assert_eq!(count, items.len())),
            2 => match receiver.recv_timeout(Duration::from_micros(50)) {
                Err(RecvTimeoutError::Timeout) => Ok(()),
                answer => answer.map(&mut each).map_err(|_| RecvError),
            },
            _ => match receiver.try_recv() {
                Err(TryRecvError::Empty) => {
                    thread::yield_now();
                    Ok(())
                }
                answer => answer.map(&mut each).map_err(|_| RecvError),
            },
        };
        items.drain(..).for_each(&mut each);
        if answer.is_err() {
            assert_eq!(receiver.try_recv().err(), Some(TryRecvError::Disconnected));
            return;
        }
    }
}

/// Eight threads pass items, each of which has to come once. They use the channel's halves, or clones of them.
fn pass<T: Debug + Send>(
    capacity: usize,
    shares: bool,
    item: impl Fn(usize) -> T + Sync,
    number: impl Fn(T) -> usize + Sync,
) {
    let (sender, receiver) = channel(capacity);
    let (item, number) = (&item, &number);
    let sums = thread::scope(|scope| {
        let senders: Vec<_> = if shares { Vec::new() } else { (0..THREADS).map(|_| sender.clone()).collect() };
        let (shared_sender, shared_receiver) = (Arc::new(sender), &receiver);
        let mut senders = senders.into_iter();
        for thread in 0..THREADS {
            let (own, shared) = (senders.next(), Arc::clone(&shared_sender));
            scope.spawn(move || send_all(own.as_ref().unwrap_or(&shared), thread, item));
        }
        drop(shared_sender);
        let threads: Vec<_> = (0..THREADS)
            .map(|thread| {
                let own = (!shares).then(|| receiver.clone());
                scope.spawn(move || {
                    let (mut count, mut sum, mut squares) = (0, 0, 0_u128);
                    receive_all(own.as_ref().unwrap_or(shared_receiver), thread, |item| {
                        let number = number(item);
                        count += 1;
                        sum += number;
                        squares += (number as u128).pow(2);
                    });
                    (count, sum, squares)
                })
            })
            .collect();
        threads.into_iter().map(|thread| thread.join().unwrap()).collect::<Vec<_>>()
    });
    let all = THREADS * ITEMS;
    assert_eq!(sums.iter().map(|sums| sums.0).sum::<usize>(), all);
    assert_eq!(sums.iter().map(|sums| sums.1).sum::<usize>(), all * (all - 1) / 2);
    let squares = (0..all as u128).map(|number| number * number).sum();
    assert_eq!(sums.iter().map(|sums| sums.2).sum::<u128>(), squares);
}

#[test]
fn numbers_come_once() {
    pass(1024, false, |number| number, |item| item);
}

#[test]
fn boxes_come_once_by_a_channel_of_one_place() {
    pass(1, false, Box::new, |item| *item);
}

#[test]
fn shared_halves_pass_large_items() {
    pass(64, true, |number| [number; 5], |item| item[usize::from(item[0] % 2 == 0)]);
}

/// All that a thread did before it sent is seen by the one that received.
#[test]
fn arcs_come_with_what_they_point_to() {
    let drops = &AtomicUsize::new(0);
    pass(16, false, |number| Arc::new(Counted { drops, number }), |item| item.number);
    assert_eq!(drops.load(SeqCst), THREADS * ITEMS);
}

/// Sends items of a type and gets them back in their order.
fn come_back<T: Clone + Debug + PartialEq>(items: &[T]) {
    let (sender, receiver) = channel(items.len());
    assert_eq!(sender.send_iter(items.iter().cloned()), Ok(items.len()));
    assert_eq!(sender.try_send_many(items), Err(TrySendError::Full(items.to_vec())));
    assert!(receiver.try_iter().eq(items.iter().cloned()));
    assert_eq!(sender.send_many(items), Ok(()));
    drop(sender);
    assert!(receiver.into_iter().eq(items.iter().cloned()));
}

#[test]
fn items_of_each_size_come_back_in_order() {
    come_back(&[(); 4]);
    come_back(&[0_u8, 1, 255, 7]);
    come_back(&[(1_u8, 2_u32), (3, 4)]);
    come_back(&[u64::MAX, 0]);
    come_back(&[1.5_f32]);
    come_back(&[Some(Box::new('a')), None]);
    come_back(&["one", "two"]);
    come_back(&[String::from("one"), String::new()]);
    come_back(&[[9_u64; 100], [8; 100]]);
    come_back(&[vec![1], vec![]]);
}

/// A thread that passes items on by `send_iter` keeps none back while it waits for the next one.
#[test]
fn a_forwarder_keeps_nothing_back() {
    let (to_forwarder, input) = channel(8);
    let (output, answers) = channel(8);
    thread::scope(|scope| {
        let forwarder = scope.spawn(move || output.send_iter(input.iter()));
        for number in 0..1000 {
            to_forwarder.send(number).unwrap();
            assert_eq!(answers.recv_timeout(Duration::from_secs(60)), Ok(number));
        }
        drop(to_forwarder);
        assert_eq!(forwarder.join().unwrap(), Ok(1000));
    });
}

/// A burst of `send_many` whose receivers go comes back, except for what was sent.
#[test]
fn what_a_burst_has_not_sent_comes_back() {
    let (sender, receiver) = channel(16);
    thread::scope(|scope| {
        let burst = scope.spawn(move || sender.send_many(Vec::from_iter(0..100)));
        let received = Vec::from_iter(receiver.iter().take(20));
        while !receiver.is_full() {
            thread::yield_now();
        }
        drop(receiver);
        assert_eq!(received, Vec::from_iter(0..20));
        assert_eq!(burst.join().unwrap(), Err(SendError(Vec::from_iter(36..100))));
    });
}

/// What a thread has sent, it or another thread can receive at once, whatever sends are under way.
#[test]
fn a_thread_receives_after_its_own_send() {
    let (sender, receiver) = &channel(THREADS);
    thread::scope(|scope| {
        for thread in 0..THREADS {
            scope.spawn(move || {
                for number in 0..ITEMS {
                    // Each thread has one item in the channel at the most, so there is room.
                    match (thread + number) % 2 {
                        0 => sender.try_send(number).unwrap(),
                        _ => sender.try_send_many([number]).unwrap(),
                    }
                    match (thread + number) % 3 {
                        0 => assert_eq!(receiver.try_recv_many(&mut Vec::new(), 1), Ok(1)),
                        _ => assert!(receiver.try_recv().is_ok()),
                    }
                }
            });
        }
    });
    assert!(sender.is_empty());
}

/// The same, by halves of its own for each thread.
#[test]
fn a_thread_receives_after_its_own_send_by_clones() {
    let (sender, receiver) = channel(THREADS);
    thread::scope(|scope| {
        for _ in 0..THREADS {
            let (sender, receiver) = (sender.clone(), receiver.clone());
            scope.spawn(move || {
                for number in 0..ITEMS {
                    sender.try_send(number).unwrap();
                    receiver.try_recv().unwrap();
                }
            });
        }
    });
    assert!(receiver.is_empty());
}

/// The only receiver of a channel that isn't empty receives, and the only sender of one that isn't full sends.
#[test]
fn the_only_half_finds_what_its_count_shows() {
    let (sender, receiver) = channel(8);
    thread::scope(move |scope| {
        for _ in 0..THREADS {
            let sender = sender.clone();
            scope.spawn(move || (0..ITEMS).for_each(|number| sender.send(number).unwrap()));
        }
        drop(sender);
        let mut count = 0;
        while count < THREADS * ITEMS {
            if !receiver.is_empty() {
                receiver.try_recv().unwrap();
                count += 1;
            }
        }
    });
    let (sender, receiver) = channel(8);
    thread::scope(move |scope| {
        for _ in 0..THREADS {
            let receiver = receiver.clone();
            scope.spawn(move || assert_eq!(receiver.iter().take(ITEMS).count(), ITEMS));
        }
        let mut count = 0;
        while count < THREADS * ITEMS {
            if !sender.is_full() {
                sender.try_send(count).unwrap();
                count += 1;
            }
        }
    });
}

#[test]
fn references_go_through_scoped_threads() {
    let texts: Vec<String> = (0..100).map(|number| number.to_string()).collect();
    let (sender, receiver) = channel::<&str>(8);
    let lengths: usize = thread::scope(|scope| {
        scope.spawn(|| {
            let sender = sender;
            texts.iter().for_each(|text| sender.send(text).unwrap());
        });
        receiver.iter().map(str::len).sum()
    });
    assert_eq!(lengths, 190);
}

#[test]
fn a_full_and_an_empty_channel_differ_from_a_closed_one() {
    let limit = Duration::from_millis(2);
    let (sender, receiver) = channel(3);
    assert_eq!((sender.capacity(), receiver.capacity(), sender.is_empty()), (4, 4, true));
    assert_eq!(receiver.try_recv(), Err(TryRecvError::Empty));
    assert_eq!(receiver.recv_timeout(limit), Err(RecvTimeoutError::Timeout));
    assert_eq!(sender.try_send_many([0, 1, 2, 3, 4]), Err(TrySendError::Full(vec![0, 1, 2, 3, 4])));
    assert_eq!((sender.try_send_many([0, 1, 2, 3]), sender.try_send_many([])), (Ok(()), Ok(())));
    assert_eq!((sender.len(), receiver.len(), receiver.is_full(), receiver.is_empty()), (4, 4, true, false));
    assert!(sender.try_send(7).unwrap_err().is_full());
    let begun = Instant::now();
    assert_eq!(sender.send_timeout(7, limit), Err(SendTimeoutError::Timeout(7)));
    assert!(begun.elapsed() >= limit);
    assert_eq!(receiver.try_recv_many(&mut Vec::new(), 0), Ok(0));
    drop(sender);
    assert!(receiver.is_closed());
    assert!(receiver.try_iter().eq(0..4));
    assert_eq!(receiver.recv(), Err(RecvError));
    assert_eq!(receiver.recv_timeout(limit), Err(RecvTimeoutError::Disconnected));
    assert_eq!(receiver.recv_many(&mut Vec::new(), 2), Err(RecvError));

    let (sender, receiver) = channel(4);
    assert!(sender.same_channel(&sender.clone()) && !sender.same_channel(&channel(4).0));
    assert!(receiver.same_channel(&receiver.clone()));
    drop(receiver);
    assert!(sender.is_closed());
    assert_eq!(sender.send(1), Err(SendError(1)));
    assert!(sender.try_send(1).unwrap_err().is_disconnected());
    assert_eq!(sender.send_timeout(1, limit), Err(SendTimeoutError::Disconnected(1)));
    assert_eq!(sender.try_send_many([0, 1, 2, 3, 4]), Err(TrySendError::Disconnected(vec![0, 1, 2, 3, 4])));
    assert_eq!(sender.try_send_many([0, 1]), Err(TrySendError::Disconnected(vec![0, 1])));
    assert_eq!(sender.send_many(Vec::from_iter(0..40)), Err(SendError(Vec::from_iter(0..40))));
    assert_eq!((sender.send_iter(3..), sender.send_iter([]), sender.send_many([])), (Err(SendError(3)), Ok(0), Ok(())));
}

#[test]
fn errors_say_why_and_are_passed_on() {
    let said = [
        SendError(1).to_string(),
        TrySendError::Full(1).to_string(),
        TrySendError::from(SendError(1)).to_string(),
        SendTimeoutError::Timeout(1).to_string(),
        SendTimeoutError::from(SendError(1)).to_string(),
        RecvError.to_string(),
        TryRecvError::Empty.to_string(),
        TryRecvError::from(RecvError).to_string(),
        RecvTimeoutError::Timeout.to_string(),
        RecvTimeoutError::from(RecvError).to_string(),
    ];
    let words = [
        "sending on a closed channel",
        "sending on a full channel",
        "sending on a closed channel",
        "timed out sending on a full channel",
        "sending on a closed channel",
        "receiving on an empty and closed channel",
        "receiving on an empty channel",
        "receiving on an empty and closed channel",
        "timed out receiving on an empty channel",
        "receiving on an empty and closed channel",
    ];
    assert_eq!(said, words);
    assert!(SendTimeoutError::Timeout(1).is_timeout() && !SendTimeoutError::Timeout(1).is_disconnected());
    assert!(SendTimeoutError::Disconnected(1).is_disconnected() && !SendTimeoutError::Disconnected(1).is_timeout());
    assert!(RecvTimeoutError::Timeout.is_timeout() && !RecvTimeoutError::Timeout.is_disconnected());
    assert!(RecvTimeoutError::Disconnected.is_disconnected() && !RecvTimeoutError::Disconnected.is_timeout());
    assert!(TryRecvError::Empty.is_empty() && !TryRecvError::Empty.is_disconnected());
    assert!(TryRecvError::Disconnected.is_disconnected() && !TryRecvError::Disconnected.is_empty());
    // The item need not be `Debug`.
    let error = SendError(thread::yield_now as fn());
    assert_eq!(format!("{error:?} {:?}", TrySendError::Full(&error)), "SendError(..) Full(..)");
    let (sender, receiver) = channel(1);
    assert_eq!(format!("{sender:?} {receiver:?}"), "Sender { .. } Receiver { .. }");
    let send = || -> Result<(), Box<dyn std::error::Error + Send + Sync>> {
        sender.try_send(String::from("a"))?;
        sender.try_send(String::from("b"))?;
        Ok(())
    };
    assert_eq!(send().unwrap_err().to_string(), "sending on a full channel");
    assert_eq!(receiver.recv().unwrap(), "a");
}

#[test]
fn capacities_have_a_range() {
    assert_eq!(try_channel::<u8>(0).unwrap_err(), NewError::BadCapacity);
    assert_eq!(try_channel::<u8>((1 << 24) + 1).unwrap_err(), NewError::BadCapacity);
    assert_eq!(try_channel::<u8>(5).unwrap().0.capacity(), 8);
    let message = catch_unwind(|| channel::<u8>(0)).unwrap_err();
    let words = "no channel of capacity 0: a channel has room for 1 to 16,777,216 items";
    assert_eq!(message.downcast_ref::<String>().unwrap(), words);
}

#[test]
fn what_nobody_receives_is_dropped_once() {
    let drops = &AtomicUsize::new(0);
    let item = |number| Counted { drops, number };
    // By the last receiver, with senders alive.
    let (sender, receiver) = channel(64);
    sender.send_many(Vec::from_iter((0..50).map(item))).unwrap();
    let other = receiver.clone();
    drop(receiver);
    assert_eq!(drops.load(SeqCst), 0);
    drop(other);
    assert_eq!(drops.load(SeqCst), 50);
    let error = sender.send(item(50)).unwrap_err();
    assert_eq!((drops.load(SeqCst), error.0.number), (50, 50));
    drop((sender, error));
    assert_eq!(drops.swap(0, SeqCst), 51);
    // By the last receiver, after all senders.
    let (sender, receiver) = channel(64);
    sender.send_many(Vec::from_iter((0..50).map(item))).unwrap();
    drop(sender);
    assert_eq!(receiver.recv().unwrap().number, 0);
    assert_eq!(drops.load(SeqCst), 1);
    drop(receiver);
    assert_eq!(drops.swap(0, SeqCst), 50);
    // In boxes, and refused.
    let (sender, receiver) = channel(2);
    assert!(sender.try_send_many(Vec::from_iter((0..3).map(|number| [item(number), item(number)]))).is_err());
    assert_eq!(drops.swap(0, SeqCst), 6);
    sender.send_iter((0..2).map(|number| [item(number), item(number)])).unwrap();
    assert!(sender.try_send([item(0), item(0)]).is_err());
    assert_eq!(drops.swap(0, SeqCst), 2);
    drop(receiver);
    drop(sender);
    assert_eq!(drops.load(SeqCst), 4);
}

/// No item is left in a channel without a receiver, even one that was being sent while the last receiver was dropped.
#[test]
fn what_is_sent_to_a_receiver_that_goes_is_dropped_at_once() {
    for round in 0..300 {
        let drops = &AtomicUsize::new(0);
        let (sender, receiver) = channel(1 << (round % 8));
        let (senders, made) = thread::scope(|scope| {
            let threads: Vec<_> = (0..3)
                .map(|thread| {
                    let sender = sender.clone();
                    scope.spawn(move || {
                        let mut made = 0;
                        loop {
                            made += 1;
                            if sender.send(Counted { drops, number: thread }).is_err() {
                                return (sender, made);
                            }
                        }
                    })
                })
                .collect();
            let received = receiver.iter().take(round).count();
            assert_eq!(received, round);
            drop(receiver);
            threads.into_iter().map(|thread| thread.join().unwrap()).unzip::<_, _, Vec<_>, Vec<_>>()
        });
        assert_eq!(drops.load(SeqCst), made.iter().sum::<usize>());
        assert!(senders.iter().all(|sender| sender.is_closed() && sender.is_empty()));
    }
}

#[test]
fn items_of_no_size_are_dropped_once() {
    static DROPS: AtomicUsize = AtomicUsize::new(0);
    struct Nothing;
    impl Drop for Nothing {
        fn drop(&mut self) {
            DROPS.fetch_add(1, SeqCst);
        }
    }
    let (sender, receiver) = channel(16);
    sender.send_iter((0..10).map(|_| Nothing)).unwrap();
    assert_eq!(receiver.try_iter().take(3).count(), 3);
    assert_eq!(DROPS.load(SeqCst), 3);
    drop((sender, receiver));
    assert_eq!(DROPS.load(SeqCst), 10);
}

#[test]
fn a_panic_amid_items_drops_each_once() {
    let drops = &AtomicUsize::new(0);
    let item = |number| Counted { drops, number };
    let (sender, receiver) = channel(64);
    sender.send_iter((0..40).map(item)).unwrap();
    // Of whoever receives.
    let panicked = catch_unwind(AssertUnwindSafe(|| {
        for item in &receiver {
            assert_ne!(item.number, 4);
        }
    }));
    assert!(panicked.is_err());
    assert_eq!((drops.load(SeqCst), receiver.len()), (5, 35));
    // Of the iterator that is sent.
    let panicked = catch_unwind(AssertUnwindSafe(|| {
        sender.send_iter((0..40).map(|number| {
            assert_ne!(number, 7);
            item(number)
        }))
    }));
    assert!(panicked.is_err());
    assert_eq!((drops.load(SeqCst), receiver.len()), (5, 35 + 7));
    drop((receiver, sender));
    assert_eq!(drops.load(SeqCst), 47);
}

#[test]
fn a_drop_that_panics_leaves_no_item() {
    static DROPS: AtomicUsize = AtomicUsize::new(0);
    struct Fragile(bool);
    impl Drop for Fragile {
        fn drop(&mut self) {
            DROPS.fetch_add(1, SeqCst);
            assert!(!self.0, "fragile");
        }
    }
    // Of the last receiver, and of the last half.
    for keeps_sender in [true, false] {
        let (sender, receiver) = channel(64);
        sender.send_iter((0..50).map(|number| Fragile(number == 3))).unwrap();
        let _sender = keeps_sender.then_some(sender);
        assert!(catch_unwind(AssertUnwindSafe(|| drop(receiver))).is_err());
        assert_eq!(DROPS.swap(0, SeqCst), 50);
    }
    // Of a burst.
    let (sender, receiver) = channel(64);
    sender.send_iter((0..50).map(|number| Fragile(number == 3))).unwrap();
    let mut items = Vec::new();
    assert_eq!(receiver.try_recv_many(&mut items, 40), Ok(40));
    assert!(catch_unwind(AssertUnwindSafe(|| drop(items))).is_err());
    assert_eq!(DROPS.swap(0, SeqCst), 40);
}

#[test]
fn a_half_that_is_forgotten_keeps_the_channel_open() {
    let (sender, receiver) = channel(4);
    std::mem::forget(sender.clone());
    sender.send(1).unwrap();
    drop(sender);
    assert_eq!((receiver.try_recv(), receiver.try_recv()), (Ok(1), Err(TryRecvError::Empty)));
    assert!(!receiver.is_closed());
}

/// All who sleep are woken by the drop of the last half on the other side.
#[test]
fn sleepers_are_woken_by_the_last_drop() {
    for _ in 0..100 {
        let (sender, receiver) = channel::<u8>(1);
        thread::scope(|scope| {
            for receiver in [receiver.clone(), receiver.clone(), receiver] {
                scope.spawn(move || assert!(receiver.recv().is_err()));
            }
            drop(sender);
        });
        let (sender, receiver) = channel::<u8>(1);
        sender.send(0).unwrap();
        thread::scope(|scope| {
            for sender in [sender.clone(), sender.clone(), sender] {
                scope.spawn(move || assert_eq!(sender.send(1), Err(SendError(1))));
            }
            drop(receiver);
        });
    }
}

#[test]
fn halves_come_and_go_while_others_work() {
    let (sender, receiver) = channel(32);
    let received = thread::scope(|scope| {
        for thread in 0..4 {
            let mut sender = sender.clone();
            scope.spawn(move || {
                for number in 0..2_000 {
                    sender = sender.clone();
                    sender.send(thread * 2_000 + number).unwrap();
                }
            });
        }
        drop(sender);
        let threads: Vec<_> = (0..4)
            .map(|_| {
                let mut receiver = receiver.clone();
                scope.spawn(move || {
                    let mut all = Vec::new();
                    while let Ok(item) = receiver.recv() {
                        receiver = receiver.clone();
                        all.push(item);
                    }
                    all
                })
            })
            .collect();
        threads.into_iter().flat_map(|thread| thread.join().unwrap()).collect::<HashSet<_>>()
    });
    assert_eq!(received, (0..8_000).collect());
}

#[test]
fn a_static_sender_is_used_by_all() {
    static SENDER: std::sync::OnceLock<Sender<usize>> = std::sync::OnceLock::new();
    let (sender, receiver) = channel(8);
    SENDER.set(sender).unwrap();
    let threads = [0, 1, 2]
        .map(|thread| thread::spawn(move || (0..10_000).for_each(|_| SENDER.get().unwrap().send(thread).unwrap())));
    assert_eq!(receiver.iter().take(30_000).sum::<usize>(), 30_000);
    threads.into_iter().for_each(|thread| thread.join().unwrap());
}
