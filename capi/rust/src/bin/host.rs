//! A host of one loop, whose jobs run in threads of their own. The clock jumps to the next timer, and the line is that of `wasmloop serve`.
//!
//! usage: host FILE

use std::thread::{spawn, JoinHandle};
use std::{env, fs, process};
use wasmloop::{Error, Job, Limits, Loop, Module, ENTERED, OVER, RAN};

const MOST: u32 = 100_000;

struct Guest {
    core: Loop,
    emits: Vec<i64>,
    /// How many callbacks ran before this turn.
    ran: u32,
    jobs: Vec<JoinHandle<Job>>,
}

impl Guest {
    /// Goes up to the next timers phase, and says for how many milliseconds there is nothing to do, or how the loop ended.
    fn steps(&mut self) -> Result<Result<u64, &'static str>, Error> {
        loop {
            let turned = self.core.turn(MOST - self.ran)?;
            match turned.did.what {
                ENTERED => {
                    self.ran += turned.callbacks;
                    return Ok(Ok(turned.wait));
                }
                RAN => {
                    self.emits.extend(self.core.emits()?);
                    if turned.did.ending != 0 {
                        return Ok(Err("failed"));
                    }
                    if self.ran + turned.callbacks == MOST {
                        return Ok(Err("limit"));
                    }
                }
                OVER => return Ok(Err("over")),
                _ => return Ok(Err("failed")),
            }
        }
    }

    fn hand_out(&mut self) -> Result<(), Error> {
        while let Some(mut job) = self.core.next_job()? {
            if self.core.start(&mut job)? {
                self.jobs.push(spawn(move || {
                    job.run().expect("a job is run once");
                    job
                }));
            }
        }
        Ok(())
    }

    fn turn(&mut self) -> Result<Option<&'static str>, Error> {
        let wait = match self.steps()? {
            Ok(wait) => wait,
            Err(ending) => return Ok(Some(ending)),
        };
        self.hand_out()?;
        match wait {
            0 => Ok(None),
            _ if !self.jobs.is_empty() => {
                let mut job = self.jobs.remove(0).join().expect("the job's thread ends");
                self.core.accept(&mut job)?;
                Ok(None)
            }
            u64::MAX => Ok(Some("waiting")),
            wait => {
                let now = self.core.clock(0)?;
                self.core.clock(now + wait)?;
                Ok(None)
            }
        }
    }
}

fn run(file: &str) -> Result<&'static str, Error> {
    let bytes = fs::read(file).expect("the file can be read");
    let limits = Limits { fuel: 1_000_000, work_fuel: 1_000_000, number: 0, depth: 64 };
    let core = Loop::new(&Module::new(&bytes)?, limits)?;
    let mut guest = Guest { core, emits: Vec::new(), ran: 0, jobs: Vec::new() };
    let ending = loop {
        if let Some(ending) = guest.turn()? {
            break ending;
        }
    };
    for job in guest.jobs {
        drop(job.join());
    }
    let emits: String = guest.emits.iter().map(|it| format!(" {it}")).collect();
    println!("loop 0 {ending} emits{emits}");
    Ok(ending)
}

fn main() {
    let file = env::args().nth(1).expect("usage: host FILE");
    process::exit(match run(&file) {
        Ok("failed") => 4,
        Ok(_) => 0,
        Err(Error::Refused { why, .. }) => {
            eprintln!("host: {why}");
            3
        }
        Err(error) => {
            eprintln!("host: {error}");
            1
        }
    });
}
