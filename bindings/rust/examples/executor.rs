//! A pool of worker threads that run futures, over one channel. A task that is woken is sent to the workers again, by
//! its waker, from whatever thread that is. A waker is shared by threads, and so is the sender in it.

use std::error::Error;
use std::future::Future;
use std::pin::Pin;
use std::sync::atomic::{AtomicBool, Ordering::SeqCst};
use std::sync::{Arc, Mutex};
use std::task::{Context, Poll, Wake, Waker};
use std::thread::{self, JoinHandle};
use synthesis_kernel::channel::SendError;
use synthesis_kernel::{Receiver, Sender, channel};

const WORKERS: usize = 4;
const TASKS: u64 = 1000;
const ROUNDS: u64 = 100;

type Job = Pin<Box<dyn Future<Output = ()> + Send>>;

/// A future, and the way back to the workers. It is in the channel once at most, so there is room for each.
struct Task {
    /// None once it is done.
    job: Mutex<Option<Job>>,
    is_sent: AtomicBool,
    workers: Sender<Arc<Task>>,
}

impl Task {
    fn send(self: &Arc<Task>) -> Result<(), SendError<Arc<Task>>> {
        if self.is_sent.swap(true, SeqCst) {
            return Ok(());
        }
        self.workers.send(Arc::clone(self))
    }

    /// One poll. Whoever wakes the task from now on sends it again.
    fn run(self: Arc<Task>) {
        self.is_sent.store(false, SeqCst);
        let waker = Waker::from(Arc::clone(&self));
        let mut job = self.job.lock().expect("no future panics");
        let is_done = job.as_mut().is_none_or(|job| job.as_mut().poll(&mut Context::from_waker(&waker)).is_ready());
        if is_done {
            *job = None;
        }
    }
}

impl Wake for Task {
    fn wake(self: Arc<Task>) {
        // Nobody runs a task that is woken after the pool.
        let _ = self.send();
    }
}

/// The workers. They end once the pool and all its tasks are dropped.
struct Pool {
    sender: Sender<Arc<Task>>,
    workers: Vec<JoinHandle<()>>,
}

impl Pool {
    /// A pool for so many tasks at a time.
    fn new(tasks: usize) -> Pool {
        let (sender, receiver) = channel(tasks);
        let work = |receiver: Receiver<Arc<Task>>| move || receiver.into_iter().for_each(Task::run);
        let workers = (0..WORKERS).map(|_| thread::spawn(work(receiver.clone()))).collect();
        Pool { sender, workers }
    }

    /// Runs the future. Its output comes by the channel that is returned.
    fn spawn<T: Send + 'static>(&self, future: impl Future<Output = T> + Send + 'static) -> Receiver<T> {
        let (result, receiver) = channel(1);
        let job = async move {
            // Whoever wanted the output may be gone.
            let _ = result.send(future.await);
        };
        let workers = self.sender.clone();
        let task = Arc::new(Task { job: Mutex::new(Some(Box::pin(job))), is_sent: AtomicBool::new(false), workers });
        task.send().expect("the workers receive");
        receiver
    }

    /// Waits for the workers, once no task is left.
    fn join(self) {
        drop(self.sender);
        self.workers.into_iter().for_each(|worker| worker.join().expect("a worker ends"));
    }
}

/// Ready at its second poll: lets other tasks go first.
#[derive(Default)]
struct YieldNow {
    was_polled: bool,
}

impl Future for YieldNow {
    type Output = ();

    fn poll(mut self: Pin<&mut Self>, context: &mut Context<'_>) -> Poll<()> {
        if self.was_polled {
            return Poll::Ready(());
        }
        self.was_polled = true;
        context.waker().wake_by_ref();
        Poll::Pending
    }
}

/// The sum of the numbers below `ROUNDS` and of the task's own, with a turn of the others after each.
async fn sum_of(task: u64) -> u64 {
    let mut sum = task;
    for round in 0..ROUNDS {
        YieldNow::default().await;
        sum += round;
    }
    sum
}

fn main() -> Result<(), Box<dyn Error>> {
    let pool = Pool::new(TASKS as usize);
    let results: Vec<_> = (0..TASKS).map(|task| pool.spawn(sum_of(task))).collect();
    let sums: Vec<u64> = results.iter().map(Receiver::recv).collect::<Result<_, _>>()?;
    assert!(sums.iter().zip(0..).all(|(sum, task)| *sum == task + ROUNDS * (ROUNDS - 1) / 2));
    pool.join();
    println!("{TASKS} tasks, sum {}", sums.iter().sum::<u64>());
    Ok(())
}
