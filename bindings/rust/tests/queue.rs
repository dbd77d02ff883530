//! The claim queue from several threads, its errors, and what drops leave.

use std::error::Error;
use std::thread;
use synthesis_kernel::queue::{PutError, QueueEnd, TakeError};
use synthesis_kernel::{CloseError, OutOfMemory, SplitError};

const PRODUCERS: u64 = 3;
const ITEMS: u64 = 30_000;

/// Puts the numbers of one producer, in runs of one to five.
fn put_all(mut end: QueueEnd<256>, producer: u64) -> QueueEnd<256> {
    let mut next = 0;
    while next < ITEMS {
        let run: Vec<u64> = (next..ITEMS.min(next + 1 + next % 5)).map(|item| producer << 32 | item).collect();
        match end.try_put(&run) {
            Ok(_) => next += run.len() as u64,
            Err(PutError::Full { .. }) => thread::yield_now(),
            Err(PutError::Lost { .. }) => {}
            Err(why) => panic!("{why}"),
        }
    }
    end
}

/// Takes until nothing will come, and gives what it took.
fn take_all(mut end: QueueEnd<256>, at_once: usize) -> (QueueEnd<256>, Vec<u64>) {
    let (mut items, mut taken) = (vec![0; at_once], Vec::new());
    loop {
        match end.take_up_to(&mut items) {
            Ok(count) => taken.extend(&items[..count]),
            Err(TakeError::Closed) => return (end, taken),
            Err(_) => thread::yield_now(),
        }
    }
}

#[test]
fn every_item_is_taken_once_in_each_producers_order() {
    let mut last = QueueEnd::new(11).unwrap();
    let ends: Vec<_> = (0..PRODUCERS).map(|_| last.split().unwrap()).collect();
    let takers: Vec<_> = [1, 64].map(|at_once| (last.split().unwrap(), at_once)).into();
    let putting: Vec<_> = (0..).zip(ends).map(|(i, end)| thread::spawn(move || put_all(end, i))).collect();
    let taking: Vec<_> = takers.into_iter().map(|(end, n)| thread::spawn(move || take_all(end, n))).collect();
    for thread in putting {
        last.join(thread.join().unwrap()).unwrap();
    }
    assert!(last.shut());
    let mut all = Vec::new();
    for thread in taking {
        let (end, taken) = thread.join().unwrap();
        last.join(end).unwrap();
        for producer in 0..PRODUCERS {
            assert!(taken.iter().filter(|item| *item >> 32 == producer).is_sorted());
        }
        all.extend(taken);
    }
    all.sort();
    let wanted: Vec<_> = (0..PRODUCERS).flat_map(|p| (0..ITEMS).map(move |item| p << 32 | item)).collect();
    assert!(all == wanted);
    let closed = last.close().unwrap();
    assert_eq!((closed.first, closed.put, closed.taken), (11, wanted.len() as u32, wanted.len() as u32));
    assert!(closed.left.is_empty());
}

#[test]
fn errors_come_in_their_order() {
    let mut end = QueueEnd::<64>::new(u32::MAX - 65).unwrap();
    assert_eq!(end.try_put(&[]), Err(PutError::NoItems));
    assert_eq!(end.try_put(&[0; 65]), Err(PutError::TooLong));
    assert_eq!(end.try_put(&[1; 63]), Ok(u32::MAX - 65));
    assert_eq!(end.try_put(&[1; 3]), Err(PutError::Spent));
    assert_eq!(end.try_put(&[1; 2]), Err(PutError::Full { head: u32::MAX - 2, tail: u32::MAX - 65 }));
    assert_eq!(end.try_put(&[1]), Ok(u32::MAX - 2));
    assert_eq!(end.try_put(&[1]), Err(PutError::Full { head: u32::MAX - 1, tail: u32::MAX - 65 }));
    assert!(end.shut());
    assert_eq!(end.try_put(&[1; 64]), Err(PutError::Closed));
    assert_eq!(end.take_up_to(&mut []), Ok(0));
    assert_eq!(end.take_up_to(&mut [0; 70]), Ok(64));
    assert_eq!(end.take_up_to(&mut [0; 70]), Err(TakeError::Closed));
    assert_eq!(end.try_take_line(&mut [0; 64]), Err(TakeError::Closed));
}

#[test]
fn errors_say_why() {
    assert_eq!(PutError::Full { head: 3, tail: 1 }.to_string(), "full at head 3, tail 1");
    assert_eq!(PutError::Lost { head: 4 }.to_string(), "lost, head 4");
    assert_eq!(TakeError::Empty { at: 5 }.to_string(), "nothing raised at 5");
    assert_eq!(TakeError::Lost { tail: 6 }.to_string(), "lost, tail 6");
    assert_eq!(TakeError::Closed.to_string(), "the queue is shut and empty");
    let errors: [Box<dyn Error>; 5] = [
        Box::new(CloseError::Open(())),
        Box::new(CloseError::Running(())),
        Box::new(SplitError::NoShare),
        Box::new(SplitError::OutOfMemory),
        Box::new(OutOfMemory),
    ];
    let words =
        ["other ends exist", "the end runs notes", "the object has too many ends", "out of memory", "out of memory"];
    assert_eq!(errors.map(|error| error.to_string()), words);
}

#[test]
fn a_dropped_end_gives_its_share_back() {
    let mut end = QueueEnd::<64>::new(0).unwrap();
    let mut other = end.split().unwrap();
    other.try_put(&[7, 8]).unwrap();
    assert_eq!(end.try_take(), Ok(7));
    let end = end.close().unwrap_err().into_inner();
    drop(other);
    let closed = end.close().unwrap();
    assert_eq!((closed.put, closed.taken, closed.left), (2, 1, vec![8]));
}

#[test]
fn an_end_of_another_queue_comes_back_whole() {
    let mut end = QueueEnd::<64>::new(0).unwrap();
    let mut stranger = QueueEnd::<64>::new(0).unwrap();
    stranger.try_put(&[9]).unwrap();
    let stranger = end.join(stranger).unwrap_err().into_inner();
    assert_eq!(stranger.close().unwrap().left, [9]);
    assert!(end.close().is_ok());
}

#[test]
fn ends_are_split_in_a_chain_and_beside_each_other() {
    let mut ends = vec![QueueEnd::<64>::new(0).unwrap()];
    for _ in 0..1000 {
        ends.push(ends.last().unwrap().split().unwrap());
        ends.push(ends[0].split().unwrap());
    }
    let mut last = ends.pop().unwrap();
    for end in ends.drain(..1000) {
        last.join(end).unwrap();
    }
    let last = last.close().unwrap_err().into_inner();
    drop(ends);
    assert!(last.close().is_ok());
}

/// The calls that need no end for themselves are made by `&`.
#[test]
fn threads_split_what_they_share() {
    let end = QueueEnd::<256>::new(0).unwrap();
    thread::scope(|scope| {
        for item in 0..8 {
            let end = &end;
            scope.spawn(move || end.split().unwrap().try_put_until(item));
        }
    });
    assert_eq!(end.capacity(), 256);
    let mut left = end.close().unwrap().left;
    left.sort_unstable();
    assert!(left.into_iter().eq(0..8));
}

trait TryPutUntil {
    fn try_put_until(self, item: u64);
}

impl TryPutUntil for QueueEnd<256> {
    fn try_put_until(mut self, item: u64) {
        while let Err(error) = self.try_put(&[item]) {
            assert!(matches!(error, PutError::Lost { .. }));
        }
    }
}
