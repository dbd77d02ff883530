//! Notes from several threads, the turn, and the errors of a chain.

use std::cell::UnsafeCell;
use std::sync::Arc;
use std::thread;
use synthesis_kernel::CloseError;
use synthesis_kernel::chain::{ChainEnd, ChainError};

const TOP_HALVES: usize = 4;
const NOTES: usize = 50_000;
const NUMBERS: usize = 1 << 14;

/// What the procedures work on, without a lock.
#[derive(Default)]
struct Bottom {
    run: usize,
    next: [usize; TOP_HALVES],
    at_fault: usize,
}

struct Shared(UnsafeCell<Bottom>);

// SAFETY: only the end with the turn comes to it, and a turn is served by one thread at a time.
unsafe impl Sync for Shared {}

impl Shared {
    fn procedure(&self, note: u16) {
        // SAFETY: no two procedures of one chain run at once.
        let bottom = unsafe { &mut *self.0.get() };
        let (top_half, number) = (usize::from(note) / NUMBERS, usize::from(note) % NUMBERS);
        if number != bottom.next[top_half] {
            bottom.at_fault += 1;
        }
        bottom.next[top_half] = (number + 1) % NUMBERS;
        bottom.run += 1;
    }
}

fn defer_all(mut end: ChainEnd, top_half: usize, shared: &Shared) -> ChainEnd {
    let mut next = 0;
    while next < NOTES {
        let note = (top_half * NUMBERS + next % NUMBERS) as u16;
        match end.try_chain(note) {
            Ok(turn) => {
                next += 1;
                turn.into_iter().flatten().for_each(|note| shared.procedure(note));
            }
            Err(ChainError::Full { .. }) => thread::yield_now(),
            Err(ChainError::Lost { .. }) => {}
            Err(refusal) => panic!("{refusal}"),
        }
    }
    end
}

#[test]
fn each_note_is_run_once_and_no_two_at_once() {
    let shared = Arc::new(Shared(UnsafeCell::default()));
    let mut first = ChainEnd::new(0).unwrap();
    let threads: Vec<_> = (0..TOP_HALVES)
        .map(|top_half| {
            let (end, shared) = (first.split().unwrap(), Arc::clone(&shared));
            thread::spawn(move || defer_all(end, top_half, &shared))
        })
        .collect();
    for thread in threads {
        first.join(thread.join().unwrap()).unwrap();
    }
    let chained = first.close().unwrap();
    let bottom = Arc::into_inner(shared).unwrap().0.into_inner();
    assert_eq!((chained.put as usize, bottom.run, bottom.at_fault), (TOP_HALVES * NOTES, TOP_HALVES * NOTES, 0));
}

#[test]
fn a_turn_that_is_dropped_is_given_again() {
    let mut end = ChainEnd::new(0).unwrap();
    let mut other = end.split().unwrap();
    assert!(end.turn().is_none());
    let mut turn = end.try_chain(1).unwrap().unwrap();
    assert!(other.try_chain(2).unwrap().is_none());
    assert_eq!(turn.next(), Some(1));
    drop(turn);
    assert!(other.try_chain(3).unwrap().is_none());
    let CloseError::Running(end) = end.close().unwrap_err() else { panic!("it runs notes") };
    // A join takes the turn over.
    other.join(end.split().unwrap()).unwrap();
    other.join(end).unwrap();
    assert_eq!(other.turn().unwrap().collect::<Vec<_>>(), [2, 3]);
    assert!(other.turn().is_none());
    assert_eq!(other.close().unwrap().run, 3);
}

#[test]
fn errors_come_in_their_order() {
    let mut end = ChainEnd::new(5).unwrap();
    for note in 0..32 {
        assert_eq!(end.try_chain(note).unwrap().is_some(), note == 0);
    }
    assert_eq!(end.try_chain(32).unwrap_err(), ChainError::Full { head: 37, tail: 5 });
    assert_eq!(end.turn().unwrap().count(), 32);
    let mut other = ChainEnd::new(u32::MAX).unwrap();
    assert_eq!(other.try_chain(0).unwrap_err(), ChainError::Spent);
    let other = end.join(other).unwrap_err().into_inner();
    assert_eq!(other.close().unwrap().put, 0);
    let other = end.split().unwrap();
    let CloseError::Open(end) = end.close().unwrap_err() else { panic!("another end exists") };
    drop(other);
    assert_eq!(end.close().unwrap().run, 32);
    assert_eq!(ChainError::Lost { head: 9 }.to_string(), "lost, head 9");
}

#[test]
fn the_turn_of_a_dropped_end_is_taken_over() {
    let mut end = ChainEnd::new(0).unwrap();
    for rounds in 0..3 {
        let mut other = end.split().unwrap();
        assert_eq!(other.try_chain(1).unwrap().unwrap().next(), Some(1));
        assert!(end.try_chain(2).unwrap().is_none());
        assert!(end.take_over().is_none(), "the other end still has its turn");
        drop(other);
        assert!(end.try_chain(3).unwrap().is_none());
        // New ends don't get the turn.
        assert!(end.split().unwrap().turn().is_none());
        if rounds < 2 {
            assert!(end.take_over().unwrap().eq([2, 3]));
            assert!(end.take_over().is_none());
        }
    }
    // The last end takes it over by itself.
    let CloseError::Running(mut end) = end.close().unwrap_err() else { panic!("notes are left") };
    assert!(end.turn().unwrap().eq([2, 3]));
    assert_eq!(end.close().unwrap().run, 9);
}

#[test]
fn a_panic_of_a_procedure_leaves_the_turn_to_others() {
    let mut end = ChainEnd::new(0).unwrap();
    let mut other = end.split().unwrap();
    let thread = thread::spawn(move || {
        for note in other.try_chain(7).unwrap().unwrap() {
            assert_ne!(note, 7, "procedure {note}");
        }
    });
    assert_eq!(
        thread.join().unwrap_err().downcast_ref::<String>().unwrap().lines().next(),
        Some("assertion `left != right` failed: procedure 7")
    );
    assert!(end.try_chain(8).unwrap().is_none());
    assert!(end.take_over().unwrap().eq([8]));
    assert_eq!(end.close().unwrap().run, 2);
}
