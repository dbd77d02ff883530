//! Boxes through a `VecDeque`, a mutex and two condition variables.

use std::collections::VecDeque;
use std::error::Error;
use std::sync::{Arc, Condvar, Mutex};
use synthesis_peers::boxes::{measure, Receives, Sends};

struct State {
    boxes: VecDeque<Box<u64>>,
    places: usize,
    senders: usize,
}

struct Channel {
    state: Mutex<State>,
    has_boxes: Condvar,
    has_room: Condvar,
}

struct Sender(Arc<Channel>);

struct Receiver(Arc<Channel>);

impl Sends for Sender {
    fn send(&mut self, item: Box<u64>) {
        let state = self.0.state.lock().expect("no thread panics");
        let is_full = |state: &mut State| state.boxes.len() == state.places;
        let mut state = self.0.has_room.wait_while(state, is_full).expect("no thread panics");
        state.boxes.push_back(item);
        drop(state);
        self.0.has_boxes.notify_one();
    }
}

impl Receives for Receiver {
    fn receive(&mut self) -> Option<Box<u64>> {
        let state = self.0.state.lock().expect("no thread panics");
        let is_empty = |state: &mut State| state.boxes.is_empty() && state.senders > 0;
        let item = self.0.has_boxes.wait_while(state, is_empty).expect("no thread panics").boxes.pop_front();
        self.0.has_room.notify_one();
        item
    }
}

impl Drop for Sender {
    fn drop(&mut self) {
        self.0.state.lock().expect("no thread panics").senders -= 1;
        self.0.has_boxes.notify_all();
    }
}

fn main() -> Result<(), Box<dyn Error>> {
    measure(|places, pairs| {
        let state = State { boxes: VecDeque::with_capacity(places), places, senders: pairs };
        let channel =
            Arc::new(Channel { state: Mutex::new(state), has_boxes: Condvar::new(), has_room: Condvar::new() });
        Ok((0..pairs).map(|_pair| (Sender(Arc::clone(&channel)), Receiver(Arc::clone(&channel)))).collect())
    })
}
