//! Boxes through the channel of `synthesis-kernel`.

use std::error::Error;
use synthesis_kernel::channel::{try_channel, Receiver, Sender};
use synthesis_peers::boxes::{measure, Receives, Sends};
use synthesis_peers::must;

struct From(Sender<Box<u64>>);

struct To(Receiver<Box<u64>>);

impl Sends for From {
    fn send(&mut self, item: Box<u64>) {
        must(self.0.send(item).is_ok(), "no receiver is left");
    }
}

impl Receives for To {
    fn receive(&mut self) -> Option<Box<u64>> {
        self.0.recv().ok()
    }
}

fn main() -> Result<(), Box<dyn Error>> {
    measure(|places, pairs| {
        let (sender, receiver) = try_channel(places)?;
        Ok((0..pairs).map(|_pair| (From(sender.clone()), To(receiver.clone()))).collect())
    })
}
