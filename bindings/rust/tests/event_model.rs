//! A model of the event, over all schedules of a few threads. A step of the model is one atomic step of the event: what
//! it does under its lock, a load, a look, or a put. A model with a fault is found, as one without a second look.

use std::collections::HashSet;

#[derive(Clone, Copy, Debug, PartialEq, Eq, Hash)]
enum At {
    /// A taker.
    Look,
    Prepare,
    LookAgain,
    Sleep,
    Asleep,
    /// It cancels its ticket, and has found something.
    Cancel,
    /// A putter.
    Put,
    Publish,
    Shut,
    /// A notify: of one, or of all.
    See,
    Pass,
    SeeAll,
    PassAll,
    End,
}

/// The faults that a model can have.
#[derive(Clone, Copy, PartialEq, Eq)]
enum Fault {
    None,
    NoSecondLook,
    NotifiesBeforePublishing,
    KeepsPassWhenCancelled,
    DoesNotPassOn,
    KeepsWakeOfAPanic,
    WakesOutsideTheLock,
}

#[derive(Clone, Copy, Debug, PartialEq, Eq, Hash)]
struct Thread {
    at: At,
    takes: bool,
    /// A taker that never finds anything. Its look panics after a sleep, and may panic before one.
    panics: bool,
    /// How many items it still takes or puts.
    left: u8,
    /// The position that it reserved.
    place: u8,
    /// The number of its ticket.
    ticket: u8,
    waited: bool,
    /// Asleep, and woken by the condition variable.
    woken: bool,
    /// How many of its waits may run out of time.
    limited: u8,
}

#[derive(Clone, Debug, PartialEq, Eq, Hash)]
struct State {
    threads: Vec<Thread>,
    /// The queue: positions reserved, taken, and which are published.
    head: u8,
    tail: u8,
    published: u16,
    is_shut: bool,
    /// The event.
    tickets: u8,
    waiters: u8,
    count: u8,
    of_all: u8,
    passes: u8,
}

impl State {
    fn is_for(&self, ticket: u8) -> bool {
        self.of_all > ticket || (self.passes > 0 && self.count > ticket)
    }

    /// A taker's look: it takes an item, or learns that none will come.
    fn look(&mut self) -> Option<bool> {
        if self.published >> self.tail & 1 == 1 {
            self.tail += 1;
            return Some(true);
        }
        (self.is_shut && self.tail == self.head).then_some(false)
    }

    /// What comes after a look that found something, or that panicked.
    fn found(&mut self, i: usize, item: bool, fault: Fault) {
        self.threads[i].left = if item { self.threads[i].left - 1 } else { 0 };
        let kept_by = if self.threads[i].panics { Fault::KeepsWakeOfAPanic } else { Fault::DoesNotPassOn };
        let passes_on = self.threads[i].waited && fault != kept_by;
        self.threads[i].at = if passes_on { At::See } else { self.next(i) };
        self.threads[i].waited = false;
    }

    fn next(&self, i: usize) -> At {
        let thread = self.threads[i];
        match (thread.left, thread.takes) {
            (0, _) => At::End,
            (_, true) => At::Look,
            (_, false) => At::Put,
        }
    }

    /// The states after one step of this thread.
    fn steps(&self, i: usize, fault: Fault) -> Vec<State> {
        let mut s = self.clone();
        let ticket = s.threads[i].ticket;
        match s.threads[i].at {
            At::End => return vec![],
            At::Look if s.threads[i].panics && s.threads[i].waited => s.found(i, false, fault),
            At::Look if s.threads[i].panics => s.threads[i].at = At::Prepare,
            At::Look => match s.look() {
                Some(item) => s.found(i, item, fault),
                None => s.threads[i].at = At::Prepare,
            },
            At::Prepare => {
                (s.tickets, s.waiters) = (s.tickets + 1, s.waiters + 1);
                s.threads[i].ticket = s.count;
                s.threads[i].at = if fault == Fault::NoSecondLook { At::Sleep } else { At::LookAgain };
            }
            At::LookAgain if s.threads[i].panics => {
                let mut panicked = s.clone();
                panicked.leave(ticket, fault);
                panicked.found(i, false, fault);
                s.threads[i].at = At::Sleep;
                return vec![s, panicked];
            }
            At::LookAgain => match s.look() {
                Some(item) => {
                    s.threads[i].left = if item { s.threads[i].left } else { 1 };
                    s.threads[i].at = At::Cancel;
                }
                None => s.threads[i].at = At::Sleep,
            },
            At::Cancel => {
                s.leave(ticket, fault);
                s.found(i, true, fault);
            }
            At::Sleep if !s.is_for(ticket) => (s.threads[i].at, s.threads[i].woken) = (At::Asleep, false),
            At::Sleep => s.wake(i, ticket),
            At::Asleep => return s.asleep(i, ticket, fault),
            At::Put => {
                s.threads[i].place = s.head;
                s.head += 1;
                s.threads[i].at = if fault == Fault::NotifiesBeforePublishing { At::See } else { At::Publish };
            }
            At::Publish => {
                s.published |= 1 << s.threads[i].place;
                s.threads[i].left -= 1;
                s.threads[i].at = if fault == Fault::NotifiesBeforePublishing { s.next(i) } else { At::See };
            }
            At::Shut => {
                // The last sender is dropped once all puts are done.
                if self.threads.iter().any(|thread| matches!(thread.at, At::Put | At::Publish)) {
                    return vec![];
                }
                s.is_shut = true;
                s.threads[i].at = At::SeeAll;
            }
            At::See if s.waiters == 0 => s.after_notify(i, fault),
            At::See => s.threads[i].at = At::Pass,
            At::Pass => return s.pass_one(i, fault),
            At::SeeAll if s.tickets == 0 => s.threads[i].at = At::End,
            At::SeeAll => s.threads[i].at = At::PassAll,
            At::PassAll => {
                (s.tickets, s.waiters, s.passes, s.count) = (0, 0, 0, s.count + 1);
                s.of_all = s.count;
                s.threads.iter_mut().filter(|thread| thread.at == At::Asleep).for_each(|thread| thread.woken = true);
                s.threads[i].at = At::End;
            }
        }
        vec![s]
    }

    fn after_notify(&mut self, i: usize, fault: Fault) {
        let publishes = fault == Fault::NotifiesBeforePublishing && !self.threads[i].takes;
        self.threads[i].at = if publishes { At::Publish } else { self.next(i) };
    }

    /// A ticket is given up.
    fn leave(&mut self, ticket: u8, fault: Fault) {
        if self.of_all > ticket {
            return;
        }
        self.tickets -= 1;
        if self.waiters == 0 || (fault == Fault::KeepsPassWhenCancelled && self.passes > 0) {
            self.passes -= 1;
        } else {
            self.waiters -= 1;
            if self.passes > 0 {
                self.count += 1;
                if let Some(thread) = self.threads.iter_mut().find(|thread| thread.at == At::Asleep && !thread.woken) {
                    thread.woken = true;
                }
            }
        }
    }

    /// The ticket has a pass, or all were woken.
    fn wake(&mut self, i: usize, ticket: u8) {
        if self.of_all <= ticket {
            (self.passes, self.tickets) = (self.passes - 1, self.tickets - 1);
        }
        (self.threads[i].at, self.threads[i].waited) = (At::Look, true);
    }

    /// A sleeper goes on only if it is woken, or its time is over.
    fn asleep(mut self, i: usize, ticket: u8, fault: Fault) -> Vec<State> {
        let mut after = Vec::new();
        if self.threads[i].limited > 0 {
            let mut late = self.clone();
            late.threads[i].limited -= 1;
            if late.is_for(ticket) {
                late.wake(i, ticket);
            } else {
                late.leave(ticket, fault);
                (late.threads[i].at, late.threads[i].waited) = (At::Look, true);
            }
            after.push(late);
        }
        if self.threads[i].woken {
            if self.is_for(ticket) {
                self.wake(i, ticket);
            } else {
                self.threads[i].woken = false;
            }
            after.push(self);
        }
        after
    }

    /// Any one of the sleepers is woken.
    fn pass_one(mut self, i: usize, fault: Fault) -> Vec<State> {
        if self.waiters == 0 {
            self.after_notify(i, fault);
            return vec![self];
        }
        (self.waiters, self.count, self.passes) = (self.waiters - 1, self.count + 1, self.passes + 1);
        self.after_notify(i, fault);
        let asleep = |thread: &Thread| thread.at == At::Asleep && !thread.woken;
        let sleepers: Vec<_> = (0..self.threads.len()).filter(|j| asleep(&self.threads[*j])).collect();
        if sleepers.is_empty() || fault == Fault::WakesOutsideTheLock {
            // A fault: the wake-up comes later, and finds another sleeper or none.
            return vec![self];
        }
        let woken = |j: usize| {
            let mut state = self.clone();
            state.threads[j].woken = true;
            state
        };
        sleepers.into_iter().map(woken).collect()
    }
}

fn thread(at: At, left: u8, limited: u8) -> Thread {
    Thread { at, takes: at == At::Look, panics: false, left, place: 0, ticket: 0, waited: false, woken: false, limited }
}

/// Goes through all schedules. Returns the number of states, or a state where some thread sleeps for good.
fn explore(threads: Vec<Thread>, fault: Fault) -> Result<usize, State> {
    let start = State {
        threads,
        head: 0,
        tail: 0,
        published: 0,
        is_shut: false,
        tickets: 0,
        waiters: 0,
        count: 0,
        of_all: 0,
        passes: 0,
    };
    let (mut seen, mut next) = (HashSet::from([start.clone()]), vec![start]);
    while let Some(state) = next.pop() {
        let after: Vec<_> = (0..state.threads.len()).flat_map(|i| state.steps(i, fault)).collect();
        if after.is_empty() && state.threads.iter().any(|thread| thread.at != At::End) {
            return Err(state);
        }
        if after.is_empty() {
            assert_eq!((state.tickets, state.waiters, state.passes), (0, 0, 0), "{state:?}");
        }
        next.extend(after.into_iter().filter(|state| seen.insert(state.clone())));
    }
    Ok(seen.len())
}

fn plans() -> Vec<Vec<Thread>> {
    let taker = |left| thread(At::Look, left, 0);
    let late = |left| thread(At::Look, left, 1);
    let fragile = || Thread { panics: true, ..late(1) };
    let putter = |left| thread(At::Put, left, 0);
    let shut = thread(At::Shut, 1, 0);
    vec![
        vec![taker(2), putter(2)],
        vec![taker(1), taker(1), putter(2)],
        vec![taker(1), taker(1), putter(1), putter(1)],
        vec![late(1), taker(1), putter(1), putter(1)],
        vec![late(1), late(1), putter(2)],
        vec![fragile(), taker(1), putter(1)],
        vec![fragile(), taker(1), taker(1), putter(2)],
        vec![fragile(), fragile(), taker(1), putter(1)],
        vec![taker(9), taker(9), putter(1), shut],
        vec![taker(9), late(9), putter(1), shut],
    ]
}

#[test]
fn no_wake_up_is_lost_in_any_schedule() {
    for plan in plans() {
        let states = explore(plan, Fault::None).unwrap_or_else(|state| panic!("asleep for good: {state:?}"));
        assert!(states > 50);
    }
}

#[test]
fn each_fault_is_found() {
    let faults = [
        Fault::NoSecondLook,
        Fault::NotifiesBeforePublishing,
        Fault::KeepsPassWhenCancelled,
        Fault::DoesNotPassOn,
        Fault::KeepsWakeOfAPanic,
        Fault::WakesOutsideTheLock,
    ];
    for (number, fault) in faults.into_iter().enumerate() {
        let is_found = |plan| std::panic::catch_unwind(|| explore(plan, fault)).is_ok_and(|found| found.is_ok());
        assert!(!plans().into_iter().all(is_found), "fault {number}");
    }
}
