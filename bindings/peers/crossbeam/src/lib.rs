//! crossbeam's `ArrayQueue` for programs in C, so that the pipeline is one program for all queues.

use crossbeam_queue::ArrayQueue;
use std::slice;

/// A queue for so many items, never null.
#[no_mangle]
pub extern "C" fn array_queue_new(places: usize) -> *mut ArrayQueue<u64> {
    Box::into_raw(Box::new(ArrayQueue::new(places)))
}

/// Takes the queue's memory back.
///
/// # Safety
///
/// The queue is one of `array_queue_new`, and no call has it any more.
#[no_mangle]
pub unsafe extern "C" fn array_queue_free(queue: *mut ArrayQueue<u64>) {
    // SAFETY: the caller's.
    drop(unsafe { Box::from_raw(queue) });
}

/// Puts items, one by one, as long as there is room. Gives how many were put.
///
/// # Safety
///
/// The queue is one of `array_queue_new`, and there are so many items.
#[no_mangle]
pub unsafe extern "C" fn array_queue_put(queue: *const ArrayQueue<u64>, items: *const u64, count: usize) -> usize {
    // SAFETY: the caller's.
    let (queue, items) = unsafe { (&*queue, slice::from_raw_parts(items, count)) };
    items.iter().take_while(|item| queue.push(**item).is_ok()).count()
}

/// Takes items, one by one, as long as there are some and room for them. Gives how many were taken.
///
/// # Safety
///
/// The queue is one of `array_queue_new`, and there is room for so many items, all of them numbers.
#[no_mangle]
pub unsafe extern "C" fn array_queue_take(queue: *const ArrayQueue<u64>, items: *mut u64, most: usize) -> usize {
    // SAFETY: the caller's.
    let (queue, items) = unsafe { (&*queue, slice::from_raw_parts_mut(items, most)) };
    let mut taken = 0;
    while taken < most {
        let Some(item) = queue.pop() else { break };
        items[taken] = item;
        taken += 1;
    }
    taken
}
