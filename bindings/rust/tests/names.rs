//! Numbers with a range, sets of processors, and the iterators that have names.

use std::iter::FusedIterator;
use synthesis_kernel::meters::{Alarm, Due, MeterSeat};
use synthesis_kernel::{
    All, Element, Gauge, OutOfRange, Processor, Processors, ProcessorsIter, Signal, WaitNumber, line,
};

fn set(numbers: &[u8]) -> Processors {
    numbers.iter().map(|number| Processor::try_from(*number).unwrap()).collect()
}

fn numbers(processors: impl IntoIterator<Item = Processor>) -> Vec<u8> {
    processors.into_iter().map(Processor::number).collect()
}

#[test]
fn numbers_have_a_range() {
    assert_eq!((Element::new(63).map(Element::number), Element::new(64)), (Some(63), None));
    assert_eq!((Gauge::try_from(7).is_ok(), Gauge::try_from(8)), (true, Err(OutOfRange)));
    let counts = (Element::all().len(), Gauge::all().len(), Signal::all().len(), WaitNumber::all().len());
    assert_eq!(counts, (64, 8, 16, 16));
    assert_eq!(usize::from(Signal::new(15).unwrap()), 15);
}

#[test]
fn all_numbers_come_from_both_ends() {
    let mut all: All<Processor> = Processor::all();
    assert_eq!((all.next(), all.next_back(), all.len()), (Processor::new(0), Processor::new(7), 6));
    assert_eq!(numbers(all.clone()), [1, 2, 3, 4, 5, 6]);
    assert_eq!(numbers(all.rev()), [6, 5, 4, 3, 2, 1]);
}

#[test]
fn sets_of_processors_are_sets() {
    let (low, odd) = (set(&[0, 1, 2, 3]), set(&[1, 3, 5, 7]));
    assert_eq!((low | odd, low & odd, low - odd), (set(&[0, 1, 2, 3, 5, 7]), set(&[1, 3]), set(&[0, 2])));
    assert_eq!((!odd, !Processors::NONE, !Processors::ALL), (set(&[0, 2, 4, 6]), Processors::ALL, Processors::NONE));
    let mut some = low;
    some |= odd;
    some -= Processor::new(0).unwrap();
    some &= set(&[0, 1, 7]);
    assert_eq!((some, some.len()), (set(&[1, 7]), 2));
    assert!(some.contains(Processor::new(7).unwrap()) && !some.contains(Processor::new(0).unwrap()));
}

#[test]
fn sets_of_processors_come_in_order_from_both_ends() {
    let mut left: ProcessorsIter = set(&[7, 0, 4, 5]).iter();
    assert_eq!((left.next(), left.next_back(), left.len()), (Processor::new(0), Processor::new(7), 2));
    assert_eq!(numbers(left.clone().rev()), [5, 4]);
    assert_eq!(numbers(left.by_ref()), [4, 5]);
    assert_eq!((left.next(), left.next_back(), left.len()), (None, None, 0));
    assert_eq!(
        (numbers(Processors::ALL), numbers(set(&[6])), numbers(Processors::NONE)),
        (Vec::from_iter(0..8), vec![6], vec![])
    );
    fn is_fused<I: FusedIterator>(_: I) {}
    is_fused(left);
}

#[test]
fn due_alarms_and_bytes_come_by_iterators_that_have_names() {
    let alarm = |due| Alarm { due, element: Element::new(9).unwrap(), signal: Signal::new(3).unwrap() };
    let mut seat = MeterSeat::new(5).unwrap();
    for due in [4, 6, 5] {
        seat.try_set(alarm(due)).unwrap();
    }
    let due: Due = seat.due();
    assert_eq!(due.len(), 2);
    assert!(due.eq([alarm(4), alarm(5)]));
    let (mut input, mut output) = line(4).unwrap();
    input.push(7).unwrap();
    let mut bytes: line::TryIter<'_> = output.try_iter();
    assert_eq!((bytes.next(), bytes.next()), (Some(7), None));
}
