//! Meters from several threads, and their errors.

use std::thread;
use synthesis_kernel::meters::{AdvanceError, Alarm, MeterSeat, SetError};
use synthesis_kernel::{Element, Gauge, OutOfRange, Signal};

const THREADS: u32 = 4;
const TICKS: u32 = 5_000;

fn alarm(due: u32, element: u8) -> Alarm {
    Alarm { due, element: Element::new(element).unwrap(), signal: Signal::new(element % 16).unwrap() }
}

/// Adds to a gauge and moves the clock on, each so many times.
fn run(mut seat: MeterSeat) -> MeterSeat {
    let gauge = Gauge::new(6).unwrap();
    for amount in 1..=TICKS {
        seat.tick(gauge, amount.into());
        while let Err(why) = seat.advance() {
            assert!(matches!(why, AdvanceError::Lost { .. }));
        }
    }
    seat
}

#[test]
fn ticks_and_advances_of_all_threads_count() {
    let mut last = MeterSeat::new(17).unwrap();
    let seats: Vec<_> = (0..THREADS).map(|_| last.split().unwrap()).collect();
    let threads: Vec<_> = seats.into_iter().map(|seat| thread::spawn(move || run(seat))).collect();
    for thread in threads {
        last.join(thread.join().unwrap()).unwrap();
    }
    let closed = last.close().unwrap();
    assert_eq!(closed.clock, 17 + THREADS * TICKS);
    assert_eq!(closed.gauges[6], u64::from(THREADS) * u64::from(TICKS) * u64::from(TICKS + 1) / 2);
    assert!(closed.alarms.is_empty());
}

#[test]
fn each_alarm_is_fired_cancelled_or_stands() {
    let mut seat = MeterSeat::new(0).unwrap();
    let slots: Vec<_> = (0..16).map(|i| seat.try_set(alarm(u32::from(i) / 4, i)).unwrap()).collect();
    assert_eq!(seat.try_set(alarm(0, 0)), Err(SetError::NoRoom));
    assert!(seat.due().eq((0..4).map(|i| alarm(0, i))));
    assert!(!seat.cancel(slots[0], alarm(0, 0)));
    assert!(!seat.cancel(slots[4], alarm(1, 5)));
    assert!(seat.cancel(slots[4], alarm(1, 4)));
    assert_eq!(seat.advance(), Ok(1));
    assert!(seat.due().eq((5..8).map(|i| alarm(1, i))));
    let closed = seat.close().unwrap();
    assert!(closed.alarms.into_iter().eq((8..16).map(|i| alarm(u32::from(i) / 4, i))));
}

#[test]
fn the_last_tick_is_the_last() {
    let mut seat = MeterSeat::new(u32::MAX - 1).unwrap();
    assert_eq!(seat.advance(), Ok(u32::MAX));
    assert_eq!(seat.advance(), Err(AdvanceError::Spent));
}

#[test]
fn a_dropped_end_gives_its_share_back() {
    let mut seat = MeterSeat::new(0).unwrap();
    let other = seat.join(MeterSeat::new(0).unwrap()).unwrap_err().into_inner();
    assert!(other.close().is_ok());
    let mut other = seat.split().unwrap();
    let gauge = Gauge::new(2).unwrap();
    assert_eq!(other.tick(gauge, 4), 0);
    let mut seat = seat.close().unwrap_err().into_inner();
    drop(other);
    assert_eq!(seat.tick(gauge, 1), 4);
    assert_eq!(seat.close().unwrap().gauges[2], 5);
}

#[test]
fn errors_say_why() {
    assert_eq!(AdvanceError::Spent.to_string(), "no ticks left");
    assert_eq!(AdvanceError::Lost { clock: 3 }.to_string(), "lost, clock 3");
    assert_eq!(SetError::NoRoom.to_string(), "no slot is empty");
    assert_eq!(SetError::Lost { slot: 4 }.to_string(), "lost, slot 4");
    assert_eq!(Gauge::new(8), None);
    assert_eq!(Element::new(64), None);
    assert_eq!(Signal::new(16), None);
    assert_eq!(Gauge::try_from(8), Err(OutOfRange));
    assert_eq!(OutOfRange.to_string(), "the number is out of its range");
    let last = Signal::try_from(15).unwrap();
    assert_eq!((last.to_string(), usize::from(last), Signal::all().next_back()), ("15".to_owned(), 15, Some(last)));
    assert_eq!(Element::all().len(), 64);
}
