//! Guests on tokio: work functions, and loops as tasks. They run in slices between other tasks, so they need no thread of their own, and dropping
//! their future ends them.
//!
//! ```no_run
//! # async fn first(bytes: &[u8]) -> Result<(), Box<dyn std::error::Error>> {
//! use wasmloop_tokio::{work, Limits, Module, Served, Task};
//!
//! let module = Module::new(bytes)?;
//! let mut job = tokio::time::timeout(std::time::Duration::from_millis(100), work(&module, Task { fuel: 1 << 40, op: 0, depth: 64 }, b"abc")).await??;
//! println!("{:?}", job.reply()?);
//!
//! let mut served = Served::new(&module, Limits { fuel: 1_000_000, work_fuel: 1_000_000, number: 0, depth: 64 })?;
//! let asks = served.asks();
//! asks.send(0)?;                                         // to the guest's async 0
//! let number = asks.request(7, b"bytes").await?;         // uv_work, then uv_after_work
//! while let Some(value) = served.emitted().await { println!("{value}"); }
//! served.over().await?;
//! # Ok(())
//! # }
//! ```

use std::collections::HashMap;
use std::fmt;
use std::future::pending;
use std::sync::Arc;
use std::time::Duration;
use tokio::sync::{mpsc, oneshot};
use tokio::task::{yield_now, JoinHandle};
use tokio::time::{sleep, Instant};
use wasmloop::{Did, Turned, ENTERED, FAILED, OVER, RAN, RETURN};
pub use wasmloop::{Ended, Error, Export, Instance, Job, Limits, Loop, Module, Task};

/// Units of a slice: some tens of microseconds, the longest that a guest holds a thread of the runtime.
pub const UNITS: u64 = 20_000;
/// So many emitted values wait for `Served::emitted`; then the loop waits.
pub const MOST_EMITTED: usize = 1024;
/// So much work of a loop runs at a time. A guest that queues and cancels for ever has no more: what it has cancelled runs on.
pub const MOST_WORK: usize = 32;

/// Runs `uv_work` in slices. The job is over: look at `Job::value` and `Job::reply`. Dropping the future ends it within a slice.
pub async fn work(module: &Module, task: Task, bytes: &[u8]) -> Result<Job, Error> {
    run(module.job(task, bytes)?).await
}

async fn run(mut job: Job) -> Result<Job, Error> {
    while !job.run_for(UNITS)? {
        yield_now().await;
    }
    Ok(job)
}

/// Calls an export of an instance in slices. Dropping the future ends the call within a slice; the instance keeps its state.
pub async fn call(instance: &mut Instance, export: &Export, args: &[u64], fuel: u64, depth: u32) -> Result<Ended, Error> {
    let mut ended = instance.call_for(export, args, fuel, depth, UNITS)?;
    let called = Called(instance);
    while ended.is_none() {
        yield_now().await;
        ended = called.0.run_for(UNITS)?;
    }
    Ok(ended.unwrap_or_default())
}

/// An instance whose call ends when this is dropped.
struct Called<'a>(&'a mut Instance);

impl Drop for Called<'_> {
    fn drop(&mut self) {
        // (an error if the call is over)
        let _ = self.0.end_call();
    }
}

/// The loop is over, has failed, or its `Served` was dropped.
#[derive(Clone, Copy, Debug, PartialEq, Eq)]
pub struct Closed;

impl fmt::Display for Closed {
    fn fmt(&self, out: &mut fmt::Formatter) -> fmt::Result {
        out.write_str("the loop is closed")
    }
}

impl std::error::Error for Closed {}

/// Why a request was not submitted.
#[derive(Debug)]
pub enum RequestError {
    Closed,
    /// An error of queue_work, below 0.
    Refused(i32),
    Library(Error),
}

impl fmt::Display for RequestError {
    fn fmt(&self, out: &mut fmt::Formatter) -> fmt::Result {
        match self {
            RequestError::Closed => Closed.fmt(out),
            RequestError::Refused(number) => write!(out, "the request is refused: {number}"),
            RequestError::Library(error) => error.fmt(out),
        }
    }
}

impl std::error::Error for RequestError {}

/// Why a loop ended that is not over.
#[derive(Debug)]
pub enum Failed {
    /// A callback did not return.
    Callback { did: Did, place: String },
    Library(Error),
}

impl fmt::Display for Failed {
    fn fmt(&self, out: &mut fmt::Formatter) -> fmt::Result {
        match self {
            Failed::Callback { did, place } => write!(out, "a callback did not return: {}, {place}", did.text()),
            Failed::Library(error) => error.fmt(out),
        }
    }
}

impl std::error::Error for Failed {}

impl From<Error> for Failed {
    fn from(error: Error) -> Failed {
        Failed::Library(error)
    }
}

/// What other tasks want of a loop. It waits until no callback is paused.
enum Ask {
    Send(u32),
    Request(u32, Vec<u8>, oneshot::Sender<Result<i32, Error>>),
    Cancel(u32, oneshot::Sender<Result<i32, Error>>),
    Reply(Job),
}

/// Sends and requests of a loop, from any task.
#[derive(Clone)]
pub struct Asks(mpsc::UnboundedSender<Ask>);

impl Asks {
    /// Sends to the guest's async `number`, counted from 0. One that is not below 16 is ignored.
    pub fn send(&self, number: u32) -> Result<(), Closed> {
        self.0.send(Ask::Send(number)).map_err(|_| Closed)
    }

    /// Submits a work request: its number, above 0. `uv_work` runs in slices beside the loop, then the loop calls `uv_after_work`.
    pub async fn request(&self, op: u32, bytes: &[u8]) -> Result<u32, RequestError> {
        let (answer, answered) = oneshot::channel();
        let number = self.asked(Ask::Request(op, bytes.to_vec(), answer), answered).await?;
        u32::try_from(number).map_err(|_| RequestError::Refused(number))
    }

    /// Cancels a request, and ends its work: 0, or an error of the guest's own cancel.
    pub async fn cancel(&self, request: u32) -> Result<i32, RequestError> {
        let (answer, answered) = oneshot::channel();
        self.asked(Ask::Cancel(request, answer), answered).await
    }

    async fn asked(&self, ask: Ask, answered: oneshot::Receiver<Result<i32, Error>>) -> Result<i32, RequestError> {
        self.0.send(ask).map_err(|_| RequestError::Closed)?;
        answered.await.map_err(|_| RequestError::Closed)?.map_err(RequestError::Library)
    }
}

/// A task that ends when this is dropped.
struct Bound<T>(JoinHandle<T>);

impl<T> Drop for Bound<T> {
    fn drop(&mut self) {
        self.0.abort();
    }
}

/// A guest's loop as a task. Dropping it ends the loop, and the work of its requests, within a slice.
pub struct Served {
    asks: Asks,
    emits: mpsc::Receiver<i64>,
    /// Each task of work has a weak one.
    works: Arc<()>,
    task: Bound<Result<(), Failed>>,
}

impl Served {
    /// Starts a loop on the runtime that this is called in.
    pub fn new(module: &Module, limits: Limits) -> Result<Served, Error> {
        let ((ask, asked), (out, emits)) = (mpsc::unbounded_channel(), mpsc::channel(MOST_EMITTED));
        let asks = Asks(ask);
        let (core, works, began) = (Loop::new(module, limits)?, Arc::new(()), Instant::now());
        let serving = Serving { core, asked, asks: asks.clone(), out, jobs: HashMap::new(), works: works.clone(), began };
        Ok(Served { asks, emits, works, task: Bound(tokio::spawn(serving.serve())) })
    }

    pub fn asks(&self) -> Asks {
        self.asks.clone()
    }

    /// The next value that the guest emits; `None` once the loop has ended and none is left. The loop waits while `MOST_EMITTED` values do.
    pub async fn emitted(&mut self) -> Option<i64> {
        self.emits.recv().await
    }

    /// How many requests have work that runs.
    pub fn working(&self) -> usize {
        Arc::weak_count(&self.works)
    }

    /// Waits until the loop is over. Values that nobody has taken are dropped.
    pub async fn over(mut self) -> Result<(), Failed> {
        self.emits.close();
        (&mut self.task.0).await.expect("the task is not aborted, and does not panic")
    }
}

struct Serving {
    core: Loop,
    asked: mpsc::UnboundedReceiver<Ask>,
    asks: Asks,
    out: mpsc::Sender<i64>,
    /// The work that runs, by request.
    jobs: HashMap<u32, Bound<()>>,
    works: Arc<()>,
    began: Instant,
}

impl Serving {
    async fn serve(mut self) -> Result<(), Failed> {
        loop {
            while let Ok(ask) = self.asked.try_recv() {
                self.answer(ask)?;
            }
            self.core.clock(self.began.elapsed().as_millis() as u64)?;
            let turned = self.turn().await?;
            if turned.did.what == FAILED || turned.did.ending != RETURN {
                return Err(self.failure(turned));
            }
            self.hand_out()?;
            match turned.did.what {
                OVER => return Ok(()),
                ENTERED if turned.wait > 0 => self.sleep(turned.wait).await?,
                _ => yield_now().await,
            }
        }
    }

    /// A turn of the loop, in slices. No callback is paused behind it.
    async fn turn(&mut self) -> Result<Turned, Failed> {
        let turned = loop {
            match self.core.turn_for(u32::MAX, UNITS)? {
                Some(turned) => break turned,
                None => yield_now().await,
            }
        };
        if turned.did.what == RAN && turned.did.emits > 0 {
            for value in self.core.emits()? {
                // (nobody may listen any more)
                let _ = self.out.send(value).await;
            }
        }
        Ok(turned)
    }

    fn answer(&mut self, ask: Ask) -> Result<(), Failed> {
        match ask {
            Ask::Send(number) if number >= 16 => {}
            Ask::Send(number) => self.core.send(number)?,
            // (who asked may be gone)
            Ask::Request(op, bytes, answer) => drop(answer.send(self.core.request(op, &bytes))),
            Ask::Cancel(request, answer) => {
                let cancelled = self.core.cancel(request);
                if let Ok(0) = cancelled {
                    self.jobs.remove(&request);
                }
                drop(answer.send(cancelled));
            }
            Ask::Reply(mut job) => {
                self.jobs.remove(&job.about()?.request);
                self.core.accept(&mut job)?;
            }
        }
        Ok(())
    }

    /// Starts the work of the requests that are new.
    fn hand_out(&mut self) -> Result<(), Failed> {
        while self.jobs.len() < MOST_WORK {
            let mut job = match self.core.next_job()? {
                Some(job) => job,
                None => break,
            };
            let (request, asks, works) = (job.about()?.request, self.asks.clone(), Arc::downgrade(&self.works));
            let task = tokio::spawn(async move {
                let _counted = works;
                if let Ok(job) = run(job).await {
                    let _ = asks.0.send(Ask::Reply(job));
                }
            });
            self.jobs.insert(request, Bound(task));
        }
        Ok(())
    }

    /// Until a timer of the guest's is due, or something is asked.
    async fn sleep(&mut self, wait: u64) -> Result<(), Failed> {
        let due = async {
            if wait == u64::MAX {
                pending::<()>().await;
            }
            sleep(Duration::from_millis(wait)).await;
        };
        tokio::select! {
            ask = self.asked.recv() => ask.map_or(Ok(()), |ask| self.answer(ask)),
            _ = due => Ok(()),
        }
    }

    fn failure(&mut self, turned: Turned) -> Failed {
        match self.core.stop_text() {
            Ok(place) => Failed::Callback { did: turned.did, place: place.unwrap_or_default() },
            Err(error) => Failed::Library(error),
        }
    }
}
