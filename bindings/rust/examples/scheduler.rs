//! Four workers, each in a thread of its own with a processor of its own, run 64 thread elements through 100 rounds. No
//! element begins a round before all have ended the one before: until then it waits, by a ticket, and the worker that
//! ends the round wakes all. Whoever has done its last round is retired. It prints what scheduler.c does.

use std::error::Error;
use std::thread;
use synthesis_kernel::hand::{Hand, MoveError, Place, TakeError};
use synthesis_kernel::{Element, Gauge, MeterSeat, Processor, WaitNumber};

const WORKERS: usize = 4;
const ELEMENTS: u64 = 64;
const ROUNDS: u64 = 100;

type Fault = Box<dyn Error + Send + Sync>;

/// What comes of an element by a step.
enum Fate {
    GoesOn,
    /// It waits for its round, by this ticket.
    Waits(u32),
    Ends,
}

/// What a worker works with, and the sum of what it did.
struct Worker {
    hand: Hand,
    seat: MeterSeat,
    processor: Processor,
    /// The wait queue of those whose round has not begun.
    next_round: WaitNumber,
    /// The gauge that counts the steps of all, and that which counts the retired.
    steps: Gauge,
    retired: Gauge,
    sum: u64,
}

/// Makes a move until no other hand is first.
fn repeat(mut call: impl FnMut() -> Result<(), MoveError>) -> Result<(), MoveError> {
    loop {
        match call() {
            Err(MoveError::Lost { .. }) => thread::yield_now(),
            answer => return answer,
        }
    }
}

impl Worker {
    fn new(hand: Hand, seat: MeterSeat, processor: Processor) -> Worker {
        Worker {
            hand,
            seat,
            processor,
            next_round: WaitNumber::new(0).expect("a wait queue"),
            steps: Gauge::new(0).expect("a gauge"),
            retired: Gauge::new(1).expect("a gauge"),
            sum: 0,
        }
    }

    /// One notify, and then all that waited before it are made ready.
    fn wake_all(&mut self) -> Result<(), MoveError> {
        let head = self.hand.notify(self.next_round);
        loop {
            match self.hand.try_wake_before(self.next_round, head) {
                Ok(Some(element)) => repeat(|| self.hand.try_ready(element))?,
                Ok(None) => return Ok(()),
                Err(_) => thread::yield_now(),
            }
        }
    }

    /// Lets the element wait for the next round. Where a round has ended since the ticket was read it is ready instead.
    fn let_wait(&mut self, element: Element, ticket: u32) -> Result<(), MoveError> {
        match repeat(|| self.hand.try_wait_at(element, self.next_round, ticket)) {
            Err(MoveError::Moved { .. }) => repeat(|| self.hand.try_ready(element)),
            answer => answer,
        }
    }

    /// A step of an element, where its round has begun: all steps of the rounds before are done.
    fn step(&mut self, element: Element) -> Result<Fate, Fault> {
        let round = self.hand.pc(element)?;
        let ticket = self.hand.ticket(self.next_round);
        if self.seat.tick(self.steps, 0) < round * ELEMENTS {
            return Ok(Fate::Waits(ticket));
        }
        self.sum += (u64::from(element.number()) + 1) * (round + 1);
        let round = self.hand.step_done(element)?;
        if self.seat.tick(self.steps, 1) + 1 == round * ELEMENTS {
            self.wake_all()?;
        }
        Ok(if round == ROUNDS { Fate::Ends } else { Fate::GoesOn })
    }

    /// A turn of an element that the worker holds: it runs on the processor until it has to wait or has ended.
    fn turn(&mut self, element: Element) -> Result<(), Fault> {
        self.hand.on(self.processor, element)?;
        let fate = loop {
            match self.step(element)? {
                Fate::GoesOn => {}
                fate => break fate,
            }
        };
        self.hand.off(self.processor)?;
        if let Fate::Waits(ticket) = fate {
            self.let_wait(element, ticket)?;
        } else {
            repeat(|| self.hand.try_retire(element))?;
            self.seat.tick(self.retired, 1);
        }
        Ok(())
    }

    /// Gives turns to the elements of the ready ring, until all are retired.
    fn work(mut self) -> Result<Worker, Fault> {
        while self.seat.tick(self.retired, 0) < ELEMENTS {
            match self.hand.try_next() {
                Ok(element) => self.turn(element)?,
                Err(TakeError::Empty | TakeError::Lost { .. }) => thread::yield_now(),
                Err(error) => return Err(error.into()),
            }
        }
        Ok(self)
    }
}

fn main() -> Result<(), Box<dyn Error>> {
    let (mut hand, mut seat) = (Hand::new()?, MeterSeat::new(0)?);
    for _ in 0..ELEMENTS {
        let element = hand.try_free()?;
        hand.try_ready(element)?;
    }
    let mut threads = Vec::new();
    for processor in Processor::all().take(WORKERS) {
        let worker = Worker::new(hand.split(processor)?, seat.split()?, processor);
        threads.push(thread::spawn(move || worker.work()));
    }
    let mut sum = 0;
    for thread in threads {
        let worker = thread.join().expect("a worker ends").map_err(|fault| fault as Box<dyn Error>)?;
        hand.join(worker.hand)?;
        seat.join(worker.seat)?;
        sum += worker.sum;
    }

    let (places, metered) = (hand.close()?, seat.close()?);
    let all = places.places.iter().zip(places.pcs);
    let retired = all.filter(|(place, pc)| **place == Place::Free && *pc == ROUNDS).count();
    println!("did {} steps, sum {sum}", metered.gauges[0]);
    println!("closed: {retired} elements are free, each after {ROUNDS} steps");
    assert_eq!(retired, places.places.len());
    Ok(())
}
