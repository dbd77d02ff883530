//! Threads that sleep on an event, and those that sleep over a queue.

use std::sync::atomic::{AtomicU32, Ordering::SeqCst};
use std::thread;
use std::time::{Duration, Instant};
use synthesis_kernel::Event;
use synthesis_kernel::queue::{PutError, QueueEnd, QueueEvents, TakeError};

const PRODUCERS: u64 = 3;
const TAKERS: u64 = 3;
const ITEMS: u64 = 100_000;
const WAITERS: u32 = 8;

/// Some threads don't wait for good: they wait 50 microseconds at a time.
fn limit_of(number: u64) -> Option<Duration> {
    (number % 3 == 2).then_some(Duration::from_micros(50))
}

fn put_all(mut end: QueueEnd<64>, events: &QueueEvents, number: u64) -> QueueEnd<64> {
    let mut items = (number..ITEMS).step_by(PRODUCERS as usize);
    let mut next = items.next();
    while let Some(item) = next {
        match end.put_wait(item, events, limit_of(number)) {
            Ok(_) => next = items.next(),
            Err(PutError::Full { .. }) => {}
            Err(why) => panic!("{why}"),
        }
    }
    end
}

fn take_all(mut end: QueueEnd<64>, events: &QueueEvents, number: u64) -> (QueueEnd<64>, Vec<u64>) {
    let mut taken = Vec::new();
    loop {
        match end.take_wait(events, limit_of(number)) {
            Ok(item) => taken.push(item),
            Err(TakeError::Closed) => return (end, taken),
            Err(_) => {}
        }
    }
}

#[test]
fn every_item_is_taken_once_by_threads_that_sleep() {
    let events = &QueueEvents::new();
    let mut last = QueueEnd::new(0).unwrap();
    let mut all = thread::scope(|scope| {
        let [putters, takers] = [PRODUCERS, TAKERS].map(|n| (0..n).map(|_| last.split().unwrap()).collect::<Vec<_>>());
        let putting: Vec<_> = (0..).zip(putters).map(|(i, end)| scope.spawn(move || put_all(end, events, i))).collect();
        let taking: Vec<_> = (0..).zip(takers).map(|(i, end)| scope.spawn(move || take_all(end, events, i))).collect();
        for thread in putting {
            last.join(thread.join().unwrap()).unwrap();
        }
        assert!(last.shut());
        events.notify_all();
        let mut all = Vec::new();
        for thread in taking {
            let (end, taken) = thread.join().unwrap();
            last.join(end).unwrap();
            all.extend(taken);
        }
        all
    });
    all.sort();
    assert!(all.into_iter().eq(0..ITEMS));
    assert_eq!(last.close().unwrap().taken, ITEMS as u32);
    assert_eq!(format!("{:?}", events.items), "Event { waiters: 0, .. }");
    assert_eq!(format!("{:?}", events.places), "Event { waiters: 0, .. }");
}

#[test]
fn two_threads_take_turns() {
    const ROUNDS: u32 = 20_000;
    let (turn, event) = (&AtomicU32::new(0), &Event::new());
    thread::scope(|scope| {
        for first in 0..2 {
            scope.spawn(move || {
                for mine in (first..ROUNDS).step_by(2) {
                    event.wait_for(None, || (turn.load(SeqCst) == mine).then_some(()));
                    turn.store(mine + 1, SeqCst);
                    event.notify_one();
                }
            });
        }
    });
    assert_eq!(turn.load(SeqCst), ROUNDS);
}

/// Lets threads wait for a notify, and for no condition, and wakes them.
fn ring(wake: impl FnOnce(&Event)) {
    let (event, announced) = (&Event::new(), &AtomicU32::new(0));
    thread::scope(|scope| {
        for _ in 0..WAITERS {
            scope.spawn(move || {
                let ticket = event.prepare();
                announced.fetch_add(1, SeqCst);
                ticket.wait();
            });
        }
        while announced.load(SeqCst) < WAITERS {
            thread::yield_now();
        }
        wake(event);
    });
    assert_eq!(format!("{event:?}"), "Event { waiters: 0, .. }");
}

#[test]
fn all_are_woken_at_once_or_one_by_one() {
    ring(Event::notify_all);
    ring(|event| (0..WAITERS).for_each(|_| event.notify_one()));
}

#[test]
fn a_notify_counts_only_where_somebody_waits() {
    let event = Event::new();
    event.notify_one();
    event.notify_all();
    let ticket = event.prepare();
    assert_eq!(format!("{event:?} {ticket:?}"), "Event { waiters: 1, .. } EventTicket { notifies: 0, .. }");
    event.notify_one();
    assert!(ticket.wait_timeout(Duration::ZERO));
    let ticket = event.prepare();
    event.notify_all();
    ticket.wait();
    let ticket = event.prepare();
    assert_eq!(format!("{ticket:?}"), "EventTicket { notifies: 2, .. }");
    ticket.cancel();
    assert_eq!(format!("{event:?}"), "Event { waiters: 0, .. }");
}

/// A thread whose look panics after a sleep doesn't keep the wake-up that it was given.
#[test]
fn a_look_that_panics_passes_its_wake_up_on() {
    let event = &Event::new();
    thread::scope(|scope| {
        let panicked = scope.spawn(move || {
            let mut looks = 0;
            event.wait_for(None, || {
                looks += 1;
                assert!(looks < 3, "the look after the sleep");
                None::<u64>
            })
        });
        while format!("{event:?}") != "Event { waiters: 1, .. }" {
            thread::yield_now();
        }
        let ticket = event.prepare();
        event.notify_one();
        assert!(panicked.join().is_err());
        assert!(ticket.wait_timeout(Duration::ZERO));
    });
    assert_eq!(format!("{event:?}"), "Event { waiters: 0, .. }");
}

/// The same, if the panic comes in a later round, while the thread has a ticket.
#[test]
fn a_panic_with_a_ticket_leaves_it() {
    let event = &Event::new();
    thread::scope(|scope| {
        let panicked = scope.spawn(move || {
            let mut looks = 0;
            event.wait_for(None, || {
                looks += 1;
                assert!(looks < 4, "the look before the second sleep");
                None::<u64>
            })
        });
        while format!("{event:?}") != "Event { waiters: 1, .. }" {
            thread::yield_now();
        }
        event.notify_one();
        assert!(panicked.join().is_err());
    });
    assert_eq!(format!("{event:?}"), "Event { waiters: 0, .. }");
}

#[test]
fn waits_time_out() {
    let event = Event::new();
    for limit in (0..4).map(Duration::from_millis) {
        let begun = Instant::now();
        assert!(!event.prepare().wait_timeout(limit));
        assert_eq!(event.wait_for(Some(limit), || None::<u64>), None);
        assert!(begun.elapsed() >= 2 * limit);
    }
    assert_eq!(event.wait_for(Some(Duration::MAX), || Some(1)), Some(1));
    assert_eq!(format!("{event:?}"), "Event { waiters: 0, .. }");
}

#[test]
fn a_queue_that_stays_full_or_empty_is_refused_in_time() {
    let (events, limit) = (QueueEvents::default(), Some(Duration::from_millis(1)));
    let mut end = QueueEnd::<64>::new(0).unwrap();
    assert_eq!(end.take_wait(&events, limit), Err(TakeError::Empty { at: 0 }));
    for position in 0..64 {
        assert_eq!(end.put_wait(7, &events, None), Ok(position));
    }
    assert_eq!(end.put_wait(7, &events, limit), Err(PutError::Full { head: 64, tail: 0 }));
    assert_eq!(end.take_wait(&events, limit), Ok(7));
    assert!(end.shut());
    events.notify_all();
    assert_eq!(end.put_wait(7, &events, None), Err(PutError::Closed));
    assert_eq!(end.close().unwrap().left.len(), 63);
}
