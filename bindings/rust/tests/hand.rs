//! Thread elements from several threads, and their errors.

use std::error::Error;
use std::sync::atomic::{AtomicI32, AtomicU64, Ordering::SeqCst};
use std::thread;
use synthesis_kernel::hand::{
    GiveError, Hand, MoveError, NewError, NotHeldError, OffError, OnError, Place, Signalled, SplitError, Started,
    StateError, StepError, TakeError,
};
use synthesis_kernel::{CloseError, Element, Processor, Processors, Signal, WaitNumber};

const WORKERS: u8 = 4;
const STEPS: u64 = 200;
const TURNS: u64 = 100;
const GIVES: u32 = 50_000;

fn element(number: u8) -> Element {
    Element::new(number).unwrap()
}

fn processor(number: u8) -> Processor {
    Processor::new(number).unwrap()
}

fn wait(number: u8) -> WaitNumber {
    WaitNumber::new(number).unwrap()
}

/// Tries again until the answer is another than that another hand was first.
fn repeat(mut call: impl FnMut() -> Result<(), MoveError>) -> Result<(), MoveError> {
    loop {
        match call() {
            Err(MoveError::Lost { .. }) => thread::yield_now(),
            answer => return answer,
        }
    }
}

/// Gives each element a step on a processor in its turn, and retires it after its last one. Ends when no element is
/// ready, since each that isn't is retired or at a worker that goes on with it.
fn work(mut hand: Hand, number: u8) -> (Hand, u64) {
    let mut done = 0;
    loop {
        let element = match hand.try_next() {
            Ok(element) => element,
            Err(TakeError::Empty) => return (hand, done),
            Err(TakeError::Lost { .. }) => continue,
            Err(error) => panic!("{error}"),
        };
        hand.on(processor(number), element).unwrap();
        let steps = hand.step_done(element).unwrap();
        assert_eq!(hand.off(processor(number)), Ok(element));
        done += 1;
        repeat(|| if steps < STEPS { hand.try_ready(element) } else { hand.try_retire(element) }).unwrap();
    }
}

#[test]
fn each_element_does_its_steps_and_is_in_one_place() {
    let mut last = Hand::new_at(7).unwrap();
    for number in 0..64 {
        assert_eq!(last.try_free(), Ok(element(number)));
        last.try_ready(element(number)).unwrap();
    }
    assert_eq!(last.try_free(), Err(TakeError::Empty));
    let hands: Vec<_> = (0..WORKERS).map(|i| last.split(processor(i)).unwrap()).collect();
    let threads: Vec<_> = (0..).zip(hands).map(|(i, hand)| thread::spawn(move || work(hand, i))).collect();
    let mut done = 0;
    for thread in threads {
        let (hand, by_one) = thread.join().unwrap();
        last.join(hand).unwrap();
        done += by_one;
    }
    assert_eq!(done, 64 * STEPS);
    let places = last.close().unwrap();
    assert_eq!(places.places, [Place::Free; 64]);
    assert_eq!(places.pcs, [STEPS; 64]);
}

/// One notify, and then all that waited before it are made ready.
fn wake_all(hand: &mut Hand, wait: WaitNumber) {
    let head = hand.notify(wait);
    loop {
        match hand.try_wake_before(wait, head) {
            Ok(Some(element)) => repeat(|| hand.try_ready(element)).unwrap(),
            Ok(None) => return,
            Err(_) => thread::yield_now(),
        }
    }
}

/// Takes the element from the ready ring; others that come first are ready again.
fn take_back(hand: &mut Hand, element: Element) {
    loop {
        match hand.try_next() {
            Ok(found) if found == element => return,
            Ok(other) => repeat(|| hand.try_ready(other)).unwrap(),
            Err(_) => thread::yield_now(),
        }
    }
}

/// Plays each second turn, and wakes the other side then. Before its own turn its element waits, by a ticket. Where a
/// wake is lost both sides wait for good.
fn play(mut hand: Hand, me: Element, side: u8, turn: &AtomicU64) -> Hand {
    let (mine, others) = (wait(side), wait(1 - side));
    let mut played = 0;
    while played < TURNS {
        let ticket = hand.ticket(mine);
        if turn.load(SeqCst) % 2 == u64::from(side) {
            turn.fetch_add(1, SeqCst);
            played += 1;
            wake_all(&mut hand, others);
            continue;
        }
        match repeat(|| hand.try_wait_at(me, mine, ticket)) {
            Ok(()) => take_back(&mut hand, me),
            Err(MoveError::Moved { notifies }) => assert_ne!(notifies, ticket),
            Err(why) => panic!("{why}"),
        }
    }
    hand
}

#[test]
fn no_wake_is_lost() {
    let turn = &AtomicU64::new(0);
    let mut last = Hand::new().unwrap();
    let sides = [0, 1].map(|side| {
        let mut hand = last.split(Processors::NONE).unwrap();
        let me = hand.try_free().unwrap();
        (hand, me, side)
    });
    thread::scope(|scope| {
        let threads = sides.map(|(hand, me, side)| scope.spawn(move || play(hand, me, side, turn)));
        for thread in threads {
            last.join(thread.join().unwrap()).unwrap();
        }
    });
    assert_eq!(turn.load(SeqCst), 2 * TURNS);
    let places = last.close().unwrap();
    assert!(places.places[..2].iter().all(|place| *place == Place::Held));
    assert!(places.places[2..].iter().all(|place| *place == Place::Free));
}

#[test]
fn processors_are_their_hands() {
    let mut hand = Hand::new().unwrap();
    let (one, two) = (hand.try_free().unwrap(), hand.try_free().unwrap());
    let mut other = hand.split(processor(7)).unwrap();
    assert!(other.serves(processor(7)) && !hand.serves(processor(7)) && hand.serves(processor(6)));
    assert_eq!(hand.split(processor(7)).unwrap_err(), SplitError::NotServed);
    assert_eq!(other.on(processor(7), one), Err(OnError::NotHeld));
    assert_eq!(hand.on(processor(7), one), Err(OnError::NotServed));
    assert_eq!(hand.on(processor(0), one), Ok(()));
    assert_eq!(hand.on(processor(0), two), Err(OnError::Busy));
    assert_eq!(hand.split(processor(0)).unwrap_err(), SplitError::Busy);
    assert_eq!(hand.on_processor(processor(0)), Some(one));
    assert_eq!(hand.on_processor(processor(1)), None);
    assert_eq!(hand.off(processor(7)), Err(OffError::NotServed));
    assert_eq!(hand.off(processor(1)), Err(OffError::Vacant));
    assert_eq!((hand.pc(one), other.pc(one)), (Ok(0), Err(NotHeldError)));
    assert_eq!((hand.step_done(one), other.step_done(one)), (Ok(1), Err(StepError::NotHeld)));
    other.join(hand).unwrap();
    assert_eq!((other.pc(one), other.off(processor(0)), other.on(processor(7), two)), (Ok(1), Ok(one), Ok(())));
    let places = other.close().unwrap();
    assert_eq!(places.places[..3], [Place::Held, Place::Processor(processor(7)), Place::Free]);
}

#[test]
fn moves_are_refused_in_order() {
    let mut hand = Hand::new_at(u32::MAX - 64).unwrap();
    let (one, two) = (hand.try_free().unwrap(), hand.try_free().unwrap());
    assert_eq!(hand.try_ready(element(2)), Err(MoveError::NotHeld));
    assert_eq!(hand.try_wait_at(element(2), wait(15), 9), Err(MoveError::NotHeld));
    assert_eq!(hand.try_retire(one), Err(MoveError::Spent));
    assert_eq!(hand.try_wait_at(one, wait(15), 9), Err(MoveError::Moved { notifies: 0 }));
    for _ in 0..64 {
        assert_eq!(hand.try_wait_at(one, wait(15), 0), Ok(()));
        assert_eq!(hand.try_wake(wait(15)), Ok(one));
    }
    assert_eq!(hand.try_wait_at(one, wait(15), 9), Err(MoveError::Spent));
    assert_eq!(hand.try_wake(wait(15)), Err(TakeError::Empty));
    assert_eq!(hand.notify(wait(15)), u32::MAX);
    assert_eq!(hand.ticket(wait(15)), 1);
    assert_eq!((hand.try_wait(one, wait(3)), hand.try_ready(two)), (Ok(()), Ok(())));
    let places = hand.close().unwrap();
    assert_eq!(places.places[..3], [Place::Wait(wait(3)), Place::Ready, Place::Free]);
}

#[test]
fn stops_and_signals_come_where_the_element_is() {
    let signal = |number| Signal::new(number).unwrap();
    let mut hand = Hand::new().unwrap();
    let one = hand.try_free().unwrap();
    assert_eq!(hand.try_start(one), Ok(Started::NotStopped));
    assert_eq!(hand.try_park(one), Ok(false));
    assert_eq!((hand.stop(one), hand.stop(one)), (true, false));
    assert_eq!(hand.try_start(one), Ok(Started::Cleared));
    assert!(hand.stop(one));
    assert_eq!((hand.try_park(one), hand.try_park(one)), (Ok(true), Err(StateError::NotHeld)));
    assert_eq!(hand.try_deliver(one), Err(StateError::NotHeld));
    let raised = [15, 0, 15].map(|number| hand.signal(one, signal(number)));
    assert_eq!(raised, [Signalled::Raised, Signalled::Raised, Signalled::Merged]);
    assert_eq!(hand.try_start(one), Ok(Started::Held));
    assert_eq!((hand.try_deliver(one), hand.try_deliver(one)), (Ok(1 << 15 | 1), Ok(0)));
    let two = hand.try_free().unwrap();
    assert!(hand.stop(two));
    assert_eq!(hand.try_park(two), Ok(true));
    assert_eq!(hand.signal(two, signal(4)), Signalled::Raised);
    let places = hand.close().unwrap();
    assert_eq!(places.places[..3], [Place::Held, Place::Stopped, Place::Free]);
    assert_eq!((places.stops, places.pending[0], places.pending[1]), (2, 0, 1 << 4));
}

#[test]
fn gives_are_refused_in_order() {
    let mut hand = Hand::new().unwrap();
    let mut other = hand.split(Processors::NONE).unwrap();
    let mut stranger = Hand::new().unwrap();
    let one = hand.try_free().unwrap();
    assert_eq!(hand.step_done(one), Ok(1));
    assert_eq!(other.give(&mut hand, one), Err(GiveError::NotHeld));
    assert_eq!(hand.give(&mut other, element(1)), Err(GiveError::NotHeld));
    assert_eq!(hand.give(&mut stranger, element(1)), Err(GiveError::NotHeld));
    hand.on(processor(0), one).unwrap();
    assert_eq!(hand.give(&mut other, one), Err(GiveError::NotHeld));
    assert_eq!(hand.off(processor(0)), Ok(one));
    // A hand that serves no processor is known to be of another table, too.
    assert_eq!((hand.stop(one), hand.give(&mut other, one)), (true, Err(GiveError::Stopped)));
    assert_eq!(other.give(&mut stranger, one), Err(GiveError::NotHeld));
    assert_eq!(hand.give(&mut stranger, one), Err(GiveError::OtherTable));
    assert_eq!((other.try_start(one), hand.give(&mut other, one)), (Ok(Started::Cleared), Ok(())));
    assert_eq!(other.give(&mut stranger, one), Err(GiveError::OtherTable));
    assert!(other.holds(one) && !hand.holds(one) && !stranger.holds(one));
    assert_eq!((other.try_park(one), other.pc(one)), (Ok(false), Ok(1)));
    assert_eq!(other.give(&mut hand, one), Ok(()));
    hand.join(other).unwrap();
    let (places, others) = (hand.close().unwrap(), stranger.close().unwrap());
    assert_eq!((places.places[..2].to_vec(), places.stops), (vec![Place::Held, Place::Free], 0));
    assert_eq!((others.places, others.stops), ([Place::Free; 64], 0));
}

/// Counts a holder of the element, who has to be alone.
fn hold(holders: &AtomicI32) {
    assert_eq!(holders.fetch_add(1, SeqCst), 0);
}

fn let_go(holders: &AtomicI32) {
    assert_eq!(holders.fetch_sub(1, SeqCst), 1);
}

/// Starts elements that are in their stop cells, gives each to its other hand, and parks it. Returns the hands, and how
/// many gives there were.
fn give_often(mut hands: [Hand; 2], seed: u32, holders: &[AtomicI32; 64]) -> ([Hand; 2], u64) {
    let (mut random, mut given) = (seed, 0);
    let [one, two] = &mut hands;
    for _ in 0..GIVES {
        random = random.wrapping_mul(1_664_525).wrapping_add(1_013_904_223);
        let chosen = Element::new((random >> 16) as u8 % 4).unwrap();
        let holders = &holders[usize::from(chosen)];
        // A start may clear the stop bit of an element that another thread is giving.
        if one.try_start(chosen) != Ok(Started::Held) {
            continue;
        }
        hold(holders);
        let_go(holders);
        let holder = match one.give(two, chosen) {
            Ok(()) => {
                given += 1;
                &mut *two
            }
            Err(GiveError::Stopped | GiveError::Lost) => &mut *one,
            Err(GiveError::Taken) => continue,
            Err(error) => panic!("{error}"),
        };
        hold(holders);
        assert!(holder.holds(chosen));
        let_go(holders);
        while holder.try_park(chosen) != Ok(true) {
            holder.stop(chosen);
        }
    }
    (hands, given)
}

#[test]
fn what_is_given_has_one_holder() {
    let mut last = Hand::new().unwrap();
    while let Ok(element) = last.try_free() {
        assert_eq!((last.stop(element), last.try_park(element)), (true, Ok(true)));
    }
    let holders = [const { AtomicI32::new(0) }; 64];
    let pairs = [1, 2].map(|seed| (seed, [0, 1].map(|_| last.split(Processors::NONE).unwrap())));
    let mut given = 0;
    thread::scope(|scope| {
        let holders = &holders;
        let threads = pairs.map(|(seed, hands)| scope.spawn(move || give_often(hands, seed, holders)));
        for thread in threads {
            let (hands, by_one) = thread.join().unwrap();
            hands.into_iter().for_each(|hand| last.join(hand).unwrap());
            given += by_one;
        }
    });
    assert!(given > 0);
    let places = last.close().unwrap();
    assert_eq!((places.places, places.stops), ([Place::Stopped; 64], u64::MAX));
}

#[test]
fn what_a_dropped_hand_had_is_taken_over() {
    assert_eq!(Hand::new_at(u32::MAX - 63).unwrap_err(), NewError::BadFirst);
    let mut hand = Hand::new().unwrap();
    let other = hand.join(Hand::new().unwrap()).unwrap_err().into_inner();
    assert!(other.close().is_ok());
    let mut other = hand.split(processor(0) | processor(1)).unwrap();
    let (held, running) = (other.try_free().unwrap(), other.try_free().unwrap());
    other.on(processor(1), running).unwrap();
    let CloseError::Open(mut hand) = hand.close().unwrap_err() else { panic!("another hand exists") };
    hand.take_over();
    drop(other);
    drop(hand.split(Processors::NONE).unwrap());
    assert!(!hand.holds(held) && !hand.serves(processor(0)));
    let mut third = hand.split(Processors::NONE).unwrap();
    assert!(!third.holds(held));
    third.take_over();
    assert!(third.holds(held) && third.serves(processor(0)) && !third.serves(processor(2)));
    assert_eq!(third.off(processor(1)), Ok(running));
    drop(third);
    // The last hand has all by itself.
    let places = hand.close().unwrap();
    assert_eq!(places.places[..3], [Place::Held, Place::Held, Place::Free]);
}

#[test]
fn hands_are_split_in_a_chain_and_beside_each_other() {
    let mut hands = vec![Hand::new().unwrap()];
    for _ in 0..1000 {
        let hand = hands.last_mut().unwrap().split(Processors::ALL).unwrap();
        hands.push(hand);
        let hand = hands[0].split(Processors::NONE).unwrap();
        hands.insert(0, hand);
    }
    let mut last = hands.pop().unwrap();
    assert!(Processor::all().all(|processor| last.serves(processor)));
    let dropped = hands.split_off(1000);
    for hand in hands {
        last.join(hand).unwrap();
    }
    let last = last.close().unwrap_err().into_inner();
    drop(dropped);
    assert!(last.close().is_ok());
}

#[test]
fn sets_of_processors_are_made_of_processors() {
    let some: Processors = [1, 7, 1].map(processor).into_iter().collect();
    assert_eq!((some.len(), some.is_empty(), Processors::NONE.is_empty()), (2, false, true));
    assert_eq!(some, processor(7) | processor(1) | Processors::NONE);
    assert!(some.iter().rev().map(Processor::number).eq([7, 1]));
    let mut more = some;
    more |= processor(0);
    more.extend([processor(2)]);
    assert_eq!(format!("{more:?}"), "{0, 1, 2, 7}");
    assert!(more.contains(processor(2)) && !some.contains(processor(2)));
    assert_eq!(Processors::from(processor(3)).iter().collect::<Vec<_>>(), [processor(3)]);
    assert_eq!(Processors::ALL.iter().count(), 8);
}

#[test]
fn errors_say_why() {
    let errors: [(Box<dyn Error>, &str); 21] = [
        (Box::new(NewError::BadFirst), "the first position is over 4,294,967,231"),
        (Box::new(NewError::OutOfMemory), "out of memory"),
        (Box::new(SplitError::NotServed), "the hand doesn't serve the processor"),
        (Box::new(SplitError::Busy), "an element is on the processor"),
        (Box::new(SplitError::NoShare), "the table has too many hands"),
        (Box::new(OnError::NotHeld), "the hand doesn't hold the element"),
        (Box::new(OnError::Busy), "an element is on the processor"),
        (Box::new(OffError::Vacant), "no element is on the processor"),
        (Box::new(NotHeldError), "the hand neither holds the element nor has it on a processor"),
        (Box::new(StepError::Spent), "the element's steps are spent"),
        (Box::new(TakeError::Empty), "nothing is raised at the tail"),
        (Box::new(TakeError::Lost { tail: 6 }), "another hand moved the tail to 6"),
        (Box::new(MoveError::Spent), "the queue's positions are spent"),
        (Box::new(MoveError::Moved { notifies: 2 }), "the number of notifies is 2"),
        (Box::new(MoveError::Lost { head: 3, notifies: 1 }), "another hand moved the head to 3, notifies 1"),
        (Box::new(StateError::NotHeld), "the hand doesn't hold the element"),
        (Box::new(GiveError::NotHeld), "the hand doesn't hold the element"),
        (Box::new(GiveError::OtherTable), "the hands are of two tables"),
        (Box::new(GiveError::Stopped), "the element's stop bit is set"),
        (Box::new(GiveError::Lost), "another hand cleared the stop bit"),
        (Box::new(GiveError::Taken), "another hand has taken the element"),
    ];
    for (error, words) in errors {
        assert_eq!(error.to_string(), words);
    }
    assert_eq!((Processor::new(8), WaitNumber::new(16)), (None, None));
}
