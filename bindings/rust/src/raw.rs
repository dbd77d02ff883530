//! The library's functions, their types and their codes, as its header declares them.

use std::ffi::{c_char, c_void};
use std::hint;
use std::mem::MaybeUninit;
use std::ptr;

/// A type of handle for each kind of end, so that none is given to a call of another kind.
macro_rules! handles {
    ($($(#[doc = $what:literal])+ $name:ident: $free:ident),+ $(,)?) => {$(
        $(#[doc = $what])+
        ///
        /// It is full or empty, is never copied, and no other module reads its fields.
        #[repr(C)]
        #[derive(Debug)]
        pub(crate) struct $name {
            at: *mut c_void,
            full: bool,
        }

        // SAFETY: the clauses of a call hold whichever thread makes it: they speak of the handle, and have no condition
        // on the thread.
        unsafe impl Send for $name {}

        // SAFETY: no two calls may use one handle at once. Each call of the library takes it by `&mut`, so threads that
        // share a `&` to it can make none.
        unsafe impl Sync for $name {}

        /// An empty handle.
        impl Default for $name {
            fn default() -> Self {
                $name { at: ptr::null_mut(), full: false }
            }
        }

        impl $name {
            /// Empties the handle, whose share is lost then. One that is empty stays so.
            pub(crate) fn free(&mut self) {
                $free(self);
            }
        }
    )+};
}

handles! {
    /// An end of a batch queue.
    Batch: synth_raw_batch_free,
    /// An end of a queue.
    Queue: synth_raw_queue_free,
    /// An end of a chain.
    Chain: synth_raw_chain_free,
    /// An end of meters.
    Seat: synth_raw_seat_free,
    /// The half of a line that pushes.
    Input: synth_raw_line_free_in,
    /// The half of a line that pops.
    Output: synth_raw_line_free_out,
    /// An end of thread elements.
    Hand: synth_raw_hand_free,
}

#[repr(C)]
#[derive(Default)]
pub(crate) struct Positions {
    pub head: u64,
    pub tail: u64,
}

#[repr(C)]
#[derive(Default)]
pub(crate) struct BatchStatus {
    pub tail: u64,
    pub published: u64,
    pub head: u64,
    pub shut: bool,
}

#[repr(C)]
#[derive(Default)]
pub(crate) struct QueueStatus {
    pub tail: u32,
    pub head: u32,
    pub raised: u32,
    pub shut: bool,
}

#[repr(C)]
#[derive(Default)]
pub(crate) struct BatchClosed {
    pub put: u64,
    pub taken: u64,
    pub left: usize,
    pub broken: usize,
}

#[repr(C)]
pub(crate) struct Answer {
    pub code: i32,
    pub head: u32,
    pub tail: u32,
}

#[repr(C)]
#[derive(Default)]
pub(crate) struct Closed {
    pub first: u32,
    pub put: u32,
    pub taken: u32,
    pub left: usize,
}

#[repr(C)]
#[derive(Default)]
pub(crate) struct Chained {
    pub put: u32,
    pub run: u32,
}

#[repr(C)]
#[derive(Clone, Copy, Debug, Default)]
pub(crate) struct Alarm {
    pub due: u32,
    pub element: u32,
    pub signal: u32,
}

#[repr(C)]
#[derive(Default)]
pub(crate) struct Metered {
    pub gauges: [u64; 8],
    pub clock: u32,
    pub alarms: u32,
    pub alarm: [Alarm; 16],
}

#[repr(C)]
#[derive(Default)]
pub(crate) struct LineTotals {
    pub sent: usize,
    pub received: usize,
    pub left: usize,
}

#[repr(C)]
pub(crate) struct Moved {
    pub code: i32,
    pub head: u32,
    pub notifies: u32,
}

#[repr(C)]
pub(crate) struct State {
    pub code: i32,
    pub word: u32,
}

#[repr(C)]
#[derive(Clone, Copy, Default)]
pub(crate) struct Place {
    pub kind: u32,
    pub number: u32,
}

#[repr(C)]
pub(crate) struct Places {
    pub place: [Place; 64],
    pub pc: [u64; 64],
    pub pending: [u16; 64],
    pub stops: u64,
}

impl Default for Places {
    fn default() -> Places {
        Places { place: [Place::default(); 64], pc: [0; 64], pending: [0; 64], stops: 0 }
    }
}

/// The numbers of the header, each once, and the list by which a test compares them with it.
macro_rules! numbers {
    ($($type:ty { $($name:ident = $number:literal),+ $(,)? })+) => {
        $($(
            #[allow(dead_code)]
            pub(crate) const $name: $type = $number;
        )+)+

        #[cfg(test)]
        const NUMBERS: &[(&str, i64)] = &[$($((stringify!($name), $number)),+),+];
    };
}

numbers! {
    i32 {
        OK = 0,
        NO_ITEMS = 1,
        TOO_LONG = 2,
        CLOSED = 3,
        SPENT = 4,
        FULL = 5,
        LOST = 6,
        EMPTY = 7,
        MOVED = 8,
        BUSY = 9,
        VACANT = 10,
        NO_ROOM = 11,
        OPEN = 12,
        NOT_HELD = 13,
        NOT_SERVED = 14,
        ALL_WOKEN = 15,
        STOPPED = 16,
        TAKEN = 17,
        BROKEN = 18,
        RUN = 20,
        LEFT = 21,
        NOTE = 22,
        AGAIN = 23,
        RUNNING = 24,
        NOT_RUNNING = 25,
        NO_MEMORY = -1,
        EMPTY_HANDLE = -2,
        FULL_HANDLE = -3,
        OTHER_OBJECT = -4,
        NO_SHARE = -5,
        SHORT_BUFFER = -6,
        BAD_NUMBER = -7,
    }
    u32 {
        START_NOT_STOPPED = 0,
        START_CLEARED = 1,
        START_HELD = 2,
        PLACE_PROCESSOR = 0,
        PLACE_READY = 1,
        PLACE_FREE = 2,
        PLACE_WAIT = 3,
        PLACE_STOPPED = 4,
        PLACE_HELD = 5,
    }
}

/// The calls that make an object. Each refers to the version's function, so that a program isn't linked with a library
/// of a version that doesn't serve this one: its calls could have other types.
macro_rules! news {
    ($($name:ident: $call:ident($($word:ident: $type:ty),+));+ $(;)?) => {$(
        pub(crate) fn $name($($word: $type),+) -> i32 {
            hint::black_box(synth_version_of_crate());
            $call($($word),+)
        }
    )+};
}

news! {
    batch_new: synth_raw_batch_new(places: usize, batch: &mut Batch);
    queue_new: synth_raw_queue_new(places: u32, first: u32, queue: &mut Queue);
    chain_new: synth_raw_chain_new(first: u32, chain: &mut Chain);
    seat_new: synth_raw_seat_new(clock: u32, seat: &mut Seat);
    line_new: synth_raw_line_new(room: usize, input: &mut Input, output: &mut Output);
    hand_new: synth_raw_hand_new(first: u32, hand: &mut Hand);
}

/// A code that the call doesn't have, or that its types rule out.
pub(crate) fn no_such_answer(code: i32) -> ! {
    unreachable!("the library answered {code}")
}

// SAFETY: the names and types are those of the header of this version; tests compare its numbers and structs. A
// reference is a pointer as the header wants it, a handle is empty or was filled by a call of its own kind, and a
// `&mut` to it lets no other call have it. For all else the library answers by a code: its clauses have no condition,
// except that of a join on the marks, which the library gives. So only the calls that take a buffer's length beside its
// pointer are unsafe.
//
// The items of a batch queue may be uninitialized in part: its calls only copy them, and look at none.
unsafe extern "C" {
    /// The version of the library. Only one that serves this version of the crate has a function of this name.
    #[link_name = concat!(
        "synth_version_",
        env!("CARGO_PKG_VERSION_MAJOR"),
        "_",
        env!("CARGO_PKG_VERSION_MINOR"),
        "_",
        env!("CARGO_PKG_VERSION_PATCH")
    )]
    safe fn synth_version_of_crate() -> *const c_char;

    safe fn synth_raw_batch_new(places: usize, batch: &mut Batch) -> i32;
    pub(crate) safe fn synth_raw_batch_split(batch: &mut Batch, other: &mut Batch) -> i32;
    pub(crate) safe fn synth_raw_batch_join(batch: &mut Batch, other: &mut Batch) -> i32;
    pub(crate) unsafe fn synth_raw_batch_try_put(
        batch: &mut Batch,
        items: *const MaybeUninit<u64>,
        count: usize,
        positions: &mut Positions,
    ) -> i32;
    pub(crate) unsafe fn synth_raw_batch_try_put_some(
        batch: &mut Batch,
        items: *const MaybeUninit<u64>,
        count: usize,
        put: &mut usize,
        positions: &mut Positions,
    ) -> i32;
    pub(crate) unsafe fn synth_raw_batch_try_take(
        batch: &mut Batch,
        items: *mut MaybeUninit<u64>,
        room: usize,
        count: &mut usize,
        positions: &mut Positions,
    ) -> i32;
    pub(crate) unsafe fn synth_raw_batch_try_take_some(
        batch: &mut Batch,
        items: *mut MaybeUninit<u64>,
        room: usize,
        count: &mut usize,
        positions: &mut Positions,
    ) -> i32;
    pub(crate) safe fn synth_raw_batch_look(batch: &mut Batch, status: &mut BatchStatus) -> i32;
    pub(crate) safe fn synth_raw_batch_len(batch: &mut Batch, count: &mut u64) -> i32;
    pub(crate) safe fn synth_raw_batch_shut(batch: &mut Batch, was_open: &mut bool) -> i32;
    pub(crate) unsafe fn synth_raw_batch_close(
        batch: &mut Batch,
        left: *mut u64,
        room: usize,
        closed: &mut BatchClosed,
    ) -> i32;
    pub(crate) safe fn synth_raw_batch_free(batch: &mut Batch) -> i32;

    safe fn synth_raw_queue_new(places: u32, first: u32, queue: &mut Queue) -> i32;
    pub(crate) safe fn synth_raw_queue_split(queue: &mut Queue, other: &mut Queue) -> i32;
    pub(crate) safe fn synth_raw_queue_join(queue: &mut Queue, other: &mut Queue) -> i32;
    pub(crate) unsafe fn synth_raw_queue_try_put(queue: &mut Queue, items: *const u64, count: usize) -> Answer;
    pub(crate) safe fn synth_raw_queue_try_take(queue: &mut Queue, item: &mut u64) -> Answer;
    pub(crate) unsafe fn synth_raw_queue_take_up_to(
        queue: &mut Queue,
        items: *mut u64,
        room: usize,
        count: &mut usize,
    ) -> Answer;
    pub(crate) unsafe fn synth_raw_queue_try_take_line(
        queue: &mut Queue,
        line: *mut u64,
        room: usize,
        count: &mut usize,
    ) -> Answer;
    pub(crate) safe fn synth_raw_queue_look(queue: &mut Queue, status: &mut QueueStatus) -> i32;
    pub(crate) safe fn synth_raw_queue_shut(queue: &mut Queue, was_open: &mut bool) -> i32;
    pub(crate) unsafe fn synth_raw_queue_close(
        queue: &mut Queue,
        left: *mut u64,
        room: usize,
        closed: &mut Closed,
    ) -> i32;
    pub(crate) safe fn synth_raw_queue_free(queue: &mut Queue) -> i32;

    safe fn synth_raw_chain_new(first: u32, chain: &mut Chain) -> i32;
    pub(crate) safe fn synth_raw_chain_split(chain: &mut Chain, other: &mut Chain) -> i32;
    pub(crate) safe fn synth_raw_chain_join(chain: &mut Chain, other: &mut Chain) -> i32;
    pub(crate) safe fn synth_raw_chain_try_chain(chain: &mut Chain, note: u16) -> Answer;
    pub(crate) safe fn synth_raw_chain_next(chain: &mut Chain, note: &mut u16) -> i32;
    pub(crate) safe fn synth_raw_chain_close(chain: &mut Chain, closed: &mut Chained) -> i32;
    pub(crate) safe fn synth_raw_chain_free(chain: &mut Chain) -> i32;

    safe fn synth_raw_seat_new(clock: u32, seat: &mut Seat) -> i32;
    pub(crate) safe fn synth_raw_seat_split(seat: &mut Seat, other: &mut Seat) -> i32;
    pub(crate) safe fn synth_raw_seat_join(seat: &mut Seat, other: &mut Seat) -> i32;
    pub(crate) safe fn synth_raw_seat_tick(seat: &mut Seat, gauge: u32, amount: u64, before: &mut u64) -> i32;
    pub(crate) safe fn synth_raw_seat_gauge(seat: &mut Seat, gauge: u32, value: &mut u64) -> i32;
    pub(crate) safe fn synth_raw_seat_clock(seat: &mut Seat, clock: &mut u32) -> i32;
    pub(crate) safe fn synth_raw_seat_advance(seat: &mut Seat, clock: &mut u32) -> Answer;
    pub(crate) safe fn synth_raw_seat_try_set(seat: &mut Seat, alarm: &Alarm, slot: &mut u32) -> Answer;
    pub(crate) safe fn synth_raw_seat_cancel(seat: &mut Seat, slot: u32, alarm: &Alarm, cancelled: &mut bool) -> i32;
    pub(crate) unsafe fn synth_raw_seat_due(seat: &mut Seat, alarms: *mut Alarm, room: usize, count: &mut usize)
    -> i32;
    pub(crate) safe fn synth_raw_seat_close(seat: &mut Seat, metered: &mut Metered) -> i32;
    pub(crate) safe fn synth_raw_seat_free(seat: &mut Seat) -> i32;

    safe fn synth_raw_line_new(room: usize, input: &mut Input, output: &mut Output) -> i32;
    pub(crate) safe fn synth_raw_line_push(input: &mut Input, byte: u8) -> i32;
    pub(crate) unsafe fn synth_raw_line_push_some(
        input: &mut Input,
        bytes: *const u8,
        count: usize,
        pushed: &mut usize,
    ) -> i32;
    pub(crate) safe fn synth_raw_line_pop(output: &mut Output, byte: &mut u8) -> i32;
    pub(crate) unsafe fn synth_raw_line_pop_some(
        output: &mut Output,
        bytes: *mut u8,
        room: usize,
        count: &mut usize,
    ) -> i32;
    pub(crate) safe fn synth_raw_line_finish(input: &mut Input, output: &mut Output, totals: &mut LineTotals) -> i32;
    pub(crate) safe fn synth_raw_line_free_in(input: &mut Input) -> i32;
    pub(crate) safe fn synth_raw_line_free_out(output: &mut Output) -> i32;

    safe fn synth_raw_hand_new(first: u32, hand: &mut Hand) -> i32;
    pub(crate) safe fn synth_raw_hand_split(hand: &mut Hand, processors: u32, other: &mut Hand) -> i32;
    pub(crate) safe fn synth_raw_hand_join(hand: &mut Hand, other: &mut Hand) -> i32;
    pub(crate) safe fn synth_raw_hand_holds(hand: &mut Hand, element: u32, held: &mut bool) -> i32;
    pub(crate) safe fn synth_raw_hand_serves(hand: &mut Hand, processor: u32, served: &mut bool) -> i32;
    pub(crate) safe fn synth_raw_hand_on_processor(hand: &mut Hand, processor: u32, element: &mut u32) -> i32;
    pub(crate) safe fn synth_raw_hand_on(hand: &mut Hand, processor: u32, element: u32) -> i32;
    pub(crate) safe fn synth_raw_hand_off(hand: &mut Hand, processor: u32, element: &mut u32) -> i32;
    pub(crate) safe fn synth_raw_hand_pc(hand: &mut Hand, element: u32, steps: &mut u64) -> i32;
    pub(crate) safe fn synth_raw_hand_step_done(hand: &mut Hand, element: u32, steps: &mut u64) -> i32;
    pub(crate) safe fn synth_raw_hand_try_next(hand: &mut Hand, element: &mut u32) -> Answer;
    pub(crate) safe fn synth_raw_hand_try_free(hand: &mut Hand, element: &mut u32) -> Answer;
    pub(crate) safe fn synth_raw_hand_try_wake(hand: &mut Hand, wait: u32, element: &mut u32) -> Answer;
    pub(crate) safe fn synth_raw_hand_notify(hand: &mut Hand, wait: u32, head: &mut u32) -> i32;
    pub(crate) safe fn synth_raw_hand_try_wake_before(
        hand: &mut Hand,
        wait: u32,
        head: u32,
        element: &mut u32,
    ) -> Answer;
    pub(crate) safe fn synth_raw_hand_try_ready(hand: &mut Hand, element: u32) -> Moved;
    pub(crate) safe fn synth_raw_hand_try_retire(hand: &mut Hand, element: u32) -> Moved;
    pub(crate) safe fn synth_raw_hand_try_wait(hand: &mut Hand, element: u32, wait: u32) -> Moved;
    pub(crate) safe fn synth_raw_hand_ticket(hand: &mut Hand, wait: u32, ticket: &mut u32) -> i32;
    pub(crate) safe fn synth_raw_hand_try_wait_at(hand: &mut Hand, element: u32, wait: u32, ticket: u32) -> Moved;
    pub(crate) safe fn synth_raw_hand_stop(hand: &mut Hand, element: u32, was_clear: &mut bool) -> i32;
    pub(crate) safe fn synth_raw_hand_try_start(hand: &mut Hand, element: u32, started: &mut u32) -> State;
    pub(crate) safe fn synth_raw_hand_try_park(hand: &mut Hand, element: u32, parked: &mut bool) -> State;
    pub(crate) safe fn synth_raw_hand_signal(hand: &mut Hand, element: u32, signal: u32, raised: &mut bool) -> i32;
    pub(crate) safe fn synth_raw_hand_pending(hand: &mut Hand, element: u32, signals: &mut u32) -> i32;
    pub(crate) safe fn synth_raw_hand_try_deliver(hand: &mut Hand, element: u32, signals: &mut u32) -> State;
    pub(crate) safe fn synth_raw_hand_close(hand: &mut Hand, places: &mut Places) -> i32;
    pub(crate) safe fn synth_raw_hand_free(hand: &mut Hand) -> i32;
}

#[cfg(test)]
mod header;
