//! The batch queue from several threads, its errors, and what drops leave.

use std::error::Error;
use std::thread;
use synthesis_kernel::CloseError;
use synthesis_kernel::batch::{BatchEnd, NewError, PutError, TakeError};

const PRODUCERS: u64 = 3;
const ITEMS: u64 = 30_000;

/// Puts the numbers of one producer, in bursts of up to 40, as many at once as there is room for.
fn put_all(mut end: BatchEnd, producer: u64) -> BatchEnd {
    let mut next = 0;
    while next < ITEMS {
        let burst: Vec<u64> = (next..ITEMS.min(next + 40)).map(|item| producer << 32 | item).collect();
        match end.try_put_some(&burst) {
            Ok((_, count)) => next += count as u64,
            Err(PutError::Full { .. }) => thread::yield_now(),
            Err(PutError::Lost { .. }) => {}
            Err(why) => panic!("{why}"),
        }
    }
    end
}

/// Takes until nothing will come, and gives what it took.
fn take_all(mut end: BatchEnd, at_once: usize) -> (BatchEnd, Vec<u64>) {
    let (mut items, mut taken) = (vec![0; at_once], Vec::new());
    loop {
        match end.try_take_some(&mut items) {
            Ok(count) => taken.extend(&items[..count]),
            Err(TakeError::Closed) => return (end, taken),
            Err(_) => thread::yield_now(),
        }
    }
}

#[test]
fn every_item_is_taken_once_in_each_producers_order() {
    let mut last = BatchEnd::new(128).unwrap();
    let ends: Vec<_> = (0..PRODUCERS).map(|_| last.split().unwrap()).collect();
    let takers: Vec<_> = [1, 64].map(|at_once| (last.split().unwrap(), at_once)).into();
    let putting: Vec<_> = (0..).zip(ends).map(|(i, end)| thread::spawn(move || put_all(end, i))).collect();
    let taking: Vec<_> = takers.into_iter().map(|(end, n)| thread::spawn(move || take_all(end, n))).collect();
    for thread in putting {
        last.join(thread.join().unwrap()).unwrap();
    }
    assert!(last.shut());
    let mut all = Vec::new();
    for thread in taking {
        let (end, taken) = thread.join().unwrap();
        last.join(end).unwrap();
        for producer in 0..PRODUCERS {
            assert!(taken.iter().filter(|item| *item >> 32 == producer).is_sorted());
        }
        all.extend(taken);
    }
    all.sort();
    let wanted: Vec<_> = (0..PRODUCERS).flat_map(|p| (0..ITEMS).map(move |item| p << 32 | item)).collect();
    assert!(all == wanted);
    let closed = last.close().unwrap();
    assert_eq!((closed.put, closed.taken), (wanted.len() as u64, wanted.len() as u64));
    assert!(closed.left.is_empty());
}

#[test]
fn errors_come_in_their_order() {
    let mut end = BatchEnd::new(8).unwrap();
    assert_eq!(end.try_put(&[]), Err(PutError::NoItems));
    assert_eq!(end.try_put(&[0; 9]), Err(PutError::TooLong));
    assert_eq!(end.try_put_some(&[]), Err(PutError::NoItems));
    assert_eq!(end.try_put(&[1, 2, 3]), Ok(0));
    assert_eq!(end.try_put(&[1; 6]), Err(PutError::Full { head: 3, free: 0 }));
    assert_eq!(end.try_put_some(&[4; 9]), Ok((3, 5)));
    assert_eq!(end.try_put_some(&[4]), Err(PutError::Full { head: 8, free: 0 }));
    assert_eq!(end.try_take(&mut [0; 2]), Err(TakeError::ShortBuffer { at: 0, count: 3 }));
    assert_eq!(end.try_take_some(&mut []), Err(TakeError::ShortBuffer { at: 0, count: 3 }));
    assert!(end.shut());
    assert_eq!(end.try_put(&[1]), Err(PutError::Closed));
    assert_eq!(end.try_put(&[0; 9]), Err(PutError::TooLong));
    assert_eq!(end.try_take(&mut [0; 8]), Ok(8));
    assert_eq!(end.try_take(&mut [0; 8]), Err(TakeError::Closed));
    assert_eq!((end.len(), end.is_empty(), end.capacity()), (0, true, 8));
    for places in [0, 3, 1 << 24 | 1, 1 << 25, usize::MAX] {
        assert_eq!(BatchEnd::new(places).unwrap_err(), NewError::BadCapacity);
    }
}

#[test]
fn errors_say_why() {
    let told = [
        PutError::NoItems.to_string(),
        PutError::TooLong.to_string(),
        PutError::Closed.to_string(),
        PutError::Spent.to_string(),
        PutError::Full { head: 3, free: 1 }.to_string(),
        PutError::Lost { head: 4 }.to_string(),
        TakeError::Empty { at: 5 }.to_string(),
        TakeError::ShortBuffer { at: 6, count: 7 }.to_string(),
        TakeError::Lost { tail: 8 }.to_string(),
        TakeError::Closed.to_string(),
        NewError::BadCapacity.to_string(),
        NewError::OutOfMemory.to_string(),
    ];
    let words = [
        "no items",
        "more items than places",
        "the queue is shut",
        "no positions left",
        "full at head 3, free 1",
        "lost, head 4",
        "nothing published at 5",
        "a batch of 7 at 6",
        "lost, tail 8",
        "the queue is shut and empty",
        "the capacity is no power of two from 1 to 16,777,216",
        "out of memory",
    ];
    assert_eq!(told, words);
}

#[test]
fn a_dropped_end_gives_its_share_back() {
    let mut end = BatchEnd::new(64).unwrap();
    let mut other = end.split().unwrap();
    other.try_put(&[7, 8]).unwrap();
    let mut item = [0];
    assert_eq!(end.try_take_some(&mut item), Ok(1));
    let error = end.close().unwrap_err();
    assert!(matches!(error, CloseError::Open(_)));
    assert_eq!((error.to_string(), format!("{error:?}")), ("other ends exist".to_owned(), "Open(..)".to_owned()));
    drop(other);
    let closed = error.into_inner().close().unwrap();
    assert_eq!((closed.put, closed.taken, closed.left), (2, 1, vec![8]));
}

#[test]
fn the_last_of_many_threads_closes_whichever_it_is() {
    for _ in 0..200 {
        let ends: Vec<_> = {
            let first = BatchEnd::new(8).unwrap();
            (0..8).map(|_| first.split().unwrap()).collect()
        };
        // Each drops its end, or closes if it is the last one.
        let act = |mut end: BatchEnd| {
            let put = end.try_put_some(&[1]).is_ok();
            (put, end.close().map(|closed| (closed.put, closed.left.len())).ok())
        };
        let threads: Vec<_> = ends.into_iter().map(|end| thread::spawn(move || act(end))).collect();
        let answers: Vec<_> = threads.into_iter().map(|thread| thread.join().unwrap()).collect();
        let put = answers.iter().filter(|(put, _)| *put).count();
        let closed: Vec<_> = answers.iter().filter_map(|(_, closed)| *closed).collect();
        // Two that try at the same moment may each find the other, and then both drop what comes back.
        assert!(closed.len() <= 1);
        assert!(closed.iter().all(|closed| *closed == (put as u64, put)));
    }
}

#[test]
fn an_end_that_is_forgotten_keeps_the_queue_open() {
    let mut end = BatchEnd::new(64).unwrap();
    std::mem::forget(end.split().unwrap());
    end.try_put(&[1]).unwrap();
    let mut end = end.close().unwrap_err().into_inner();
    assert_eq!(end.try_take(&mut [0]), Ok(1));
    assert!(end.split().is_ok());
    assert!(matches!(end.close(), Err(CloseError::Open(_))));
}

#[test]
fn a_panic_gives_the_end_back() {
    let mut end = BatchEnd::new(64).unwrap();
    let mut other = end.split().unwrap();
    let thread = thread::spawn(move || -> () {
        other.try_put(&[5]).unwrap();
        panic!("{}", other.close().unwrap_err());
    });
    let message = thread.join().unwrap_err();
    assert_eq!(message.downcast_ref::<String>().unwrap(), "other ends exist");
    assert!(end.try_iter().eq([5]));
    assert_eq!(end.close().unwrap().taken, 1);
}

#[test]
fn an_end_of_another_queue_comes_back_whole() {
    let mut end = BatchEnd::new(64).unwrap();
    let mut stranger = BatchEnd::new(64).unwrap();
    stranger.try_put(&[9]).unwrap();
    let error = end.join(stranger).unwrap_err();
    assert_eq!(error.to_string(), "the ends are of two objects");
    assert_eq!(error.into_inner().close().unwrap().left, [9]);
    assert!(end.close().is_ok());
}

#[test]
fn ends_come_and_go_without_end() {
    let mut end = BatchEnd::new(64).unwrap();
    for round in 0..3_000_000 / 100 {
        let ends: Vec<_> = (0..100).map(|_| end.split().unwrap()).collect();
        for (number, other) in ends.into_iter().enumerate() {
            if number % 4 != round % 4 {
                end.join(other).unwrap();
            }
        }
    }
    let mut chain = vec![end];
    for _ in 0..1000 {
        chain.push(chain.last().unwrap().split().unwrap());
    }
    assert!(chain.drain(..).next_back().unwrap().close().is_err());
}

/// An error that has an end is one that programs pass on.
#[test]
fn errors_are_passed_on_by_any_error_type() {
    fn close_two(end: BatchEnd, other: BatchEnd) -> Result<u64, Box<dyn Error + Send + Sync>> {
        let mut end = end;
        end.join(other)?;
        Ok(end.close()?.put)
    }
    let end = BatchEnd::new(8).unwrap();
    let other = end.split().unwrap();
    assert_eq!(close_two(end, other).unwrap(), 0);
    let strangers = close_two(BatchEnd::new(8).unwrap(), BatchEnd::new(8).unwrap());
    assert_eq!(strangers.unwrap_err().to_string(), "the ends are of two objects");
}
