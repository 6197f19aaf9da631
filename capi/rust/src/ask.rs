//! Calls of a plug-in that asks its host, as `examples/kit/ask` makes them: the plug-in hands over bytes, and goes on once you answer.
//!
//! ```no_run
//! # fn price(question: &[u8]) -> Option<Vec<u8>> { Some(question.to_vec()) }
//! # fn main() -> Result<(), Box<dyn std::error::Error>> {
//! use wasmloop::ask::{Call, Stage};
//! use wasmloop::{Instance, Module};
//!
//! let mut plugin = Instance::new(&Module::new(&std::fs::read("cart.wasm")?)?, 1_000_000, 64)?;
//! let mut call = Call::new("total", &[20], 1_000_000, 64);
//! let mut stage = call.begin(&mut plugin)?;
//! while let Stage::Asks(question) = stage {
//!     stage = call.answer(&mut plugin, price(&question).as_deref())?;
//! }
//! # Ok(())
//! # }
//! ```
//!
//! Between a question and its answer nothing of the plug-in runs: keep thousands of calls in one thread, and answer each when you can. Meanwhile
//! the instance may be called for functions that do not ask. After an error, drop the instance: it stands in the middle of the call.

use crate::{Ended, Error, Instance, KIND};

/// What `ask` of the guest returns if there is no answer.
const NO_ANSWER: i32 = -2;

/// The greatest question that is read; of a longer one, its first bytes.
pub const MOST: usize = 65_536;

/// How far a call has come.
#[derive(Debug)]
pub enum Stage {
    /// The plug-in asks this, and waits.
    Asks(Vec<u8>),
    /// The call has returned.
    Over(Ended),
}

/// A call whose questions you answer one by one.
#[derive(Clone, Debug)]
pub struct Call {
    name: String,
    args: Vec<u64>,
    /// The units that are left for the whole call.
    pub fuel: u64,
    depth: u32,
    place: u32,
    room: u32,
}

impl Call {
    /// A call of the function exported under a name, with fuel for all of it.
    pub fn new(name: &str, args: &[u64], fuel: u64, depth: u32) -> Call {
        Call { name: name.into(), args: args.into(), fuel, depth, place: 0, room: 0 }
    }

    fn run(&mut self, plugin: &mut Instance, name: &str, args: &[u64]) -> Result<Ended, Error> {
        let ended = plugin.call(name, args, self.fuel, self.depth)?;
        self.fuel -= ended.used;
        Ok(ended)
    }

    /// Runs up to the first question, or to the end.
    pub fn begin(&mut self, plugin: &mut Instance) -> Result<Stage, Error> {
        let ended = plugin.call(&self.name, &self.args, self.fuel, self.depth)?;
        self.fuel -= ended.used;
        let at = match self.run(plugin, "ask_next", &[]) {
            Ok(next) => next.results().first().copied().unwrap_or(0) as u32,
            Err(Error::NoFunction(_)) => 0, // a plug-in that never asks
            Err(why) => return Err(why),
        };
        if at == 0 {
            return Ok(Stage::Over(ended));
        }
        let mut raw = [0; 16];
        plugin.read(at, &mut raw)?;
        let field = |k: usize| u32::from_le_bytes([raw[k], raw[k + 1], raw[k + 2], raw[k + 3]]);
        self.place = field(8);
        self.room = field(12);
        let mut question = vec![0; (field(4) as usize).min(MOST)];
        plugin.read(field(0), &mut question)?;
        Ok(Stage::Asks(question))
    }

    /// Answers, and runs up to the next question, or to the end. The plug-in gets as many bytes as it has room for; `None`: there is no answer.
    pub fn answer(&mut self, plugin: &mut Instance, answer: Option<&[u8]>) -> Result<Stage, Error> {
        let bytes = answer.unwrap_or_default();
        let told = answer.map_or(NO_ANSWER as u32, |it| it.len().min(i32::MAX as usize) as u32);
        plugin.write(self.place, &bytes[..bytes.len().min(self.room as usize)])?;
        let waited = self.run(plugin, "ask_answer", &[told.into()])?.results().first() == Some(&0);
        if !waited {
            return Err(Error::State { status: KIND, why: "the plug-in does not wait for an answer" });
        }
        self.begin(plugin)
    }
}
