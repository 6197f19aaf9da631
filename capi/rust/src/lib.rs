//! Run untrusted WebAssembly modules: a binding of libwasmloop.a. `wasmloop.h` documents the calls in full.
//!
//! ```no_run
//! # fn main() -> Result<(), Box<dyn std::error::Error>> {
//! use wasmloop::{Module, Task};
//!
//! let module = Module::new(&std::fs::read("crc32.wasm")?)?;
//! let mut job = module.work(Task { fuel: 1_000_000, op: 0, depth: 64 }, b"abc")?;
//! println!("{}", job.value()?);
//! # Ok(())
//! # }
//! ```
//!
//! A `Module` is `Sync`: several threads may use it at once. A `Loop`, an `Instance` and a `Job` are `Send`.

pub mod ask;

use std::ffi::{CStr, CString};
use std::fmt;
use std::os::raw::c_char;
use std::ptr::{null, null_mut};
use std::time::{Duration, Instant};

/// The statuses of wasmloop.h, as in `Error::Status` and `Error::State`.
pub const OK: i32 = 0;
pub const NONE: i32 = 1;
pub const EMPTY: i32 = 2;
pub const KIND: i32 = 3;
pub const MEMORY: i32 = 4;
pub const REFUSED: i32 = 5;
pub const RANGE: i32 = 6;
pub const STRANGER: i32 = 7;
pub const USED_UP: i32 = 8;
pub const NULL: i32 = 9;
pub const NO_WORK: i32 = 10;
pub const NOT_STARTED: i32 = 11;
pub const ARGUMENTS: i32 = 12;

/// The most sites of a backtrace of a loop or an instance: the greatest call-depth limit.
const MOST_CALLS: usize = 128;
/// The most sites of a backtrace of a job.
const MOST_SITES: usize = 17;

/// The values of `Did::what`.
pub const ENTERED: u32 = 1;
pub const RAN: u32 = 2;
pub const SKIPPED: u32 = 3;
pub const OVER: u32 = 4;
pub const FAILED: u32 = 5;

/// How a callback or a call ended: `DEPTH` exceeded the call-depth limit, `SPENT` ran out of fuel.
pub const RETURN: u32 = 0;
pub const TRAP: u32 = 1;
pub const DEPTH: u32 = 2;
pub const SPENT: u32 = 3;

/// What a handle of the library holds; a job, an instance or a loop that is paused has `HOLDS_PAUSED` added.
const HOLDS_PAUSED: u32 = 16;

/// The units of fuel between two looks at the clock, about a millisecond: how far a run with a deadline may pass it.
const SLICE: u64 = 100_000;

/// The values of `About::outcome`: how a job ended.
pub const NOT_RUN: u32 = 0;
pub const WORK_DONE: u32 = 1;
pub const WORK_TRAP: u32 = 2;
pub const WORK_DEPTH: u32 = 3;
pub const WORK_SPENT: u32 = 4;
pub const WORK_MEMORY: u32 = 5;

#[repr(C)]
struct Handle {
    mark: u64,
    at: *mut u8,
}

// An object may move to another thread, as the library proves.
unsafe impl Send for Handle {}

const NOTHING: Handle = Handle { mark: 0, at: null_mut() };

impl Drop for Handle {
    fn drop(&mut self) {
        unsafe { wasmloop_drop(self) };
    }
}

/// Why and where a module was rejected.
#[repr(C)]
#[derive(Clone, Copy, Debug, Default)]
pub struct Fault {
    pub stage: u32,
    pub code: u32,
    pub place: u32,
    pub section: u32,
    pub byte: u64,
    pub function: u64,
    pub number: u64,
}

/// The limits of a loop: the fuel of each callback and each job, an identifier copied into its jobs, and the call-depth limit.
#[repr(C)]
#[derive(Clone, Copy, Debug)]
pub struct Limits {
    pub fuel: u64,
    pub work_fuel: u64,
    pub number: u32,
    pub depth: u32,
}

/// What a job runs, and its limits: the fuel, the argument of `uv_work`, and the call-depth limit.
#[repr(C)]
#[derive(Clone, Copy, Debug)]
pub struct Task {
    pub fuel: u64,
    pub op: u32,
    pub depth: u32,
}

/// What one step of a loop did.
#[repr(C)]
#[derive(Clone, Copy, Debug, Default)]
pub struct Did {
    pub what: u32,
    pub phase: u32,
    pub kind: u32,
    pub number: u32,
    pub ending: u32,
    pub trap: u32,
    pub emits: u32,
    zero: u32,
    pub now: u64,
    pub used: u64,
}

/// A job's request, and its outcome. `value` is the result if the outcome is `WORK_DONE`, and the trap's number if it is `WORK_TRAP`.
#[repr(C)]
#[derive(Clone, Copy, Debug, Default)]
pub struct About {
    pub of_loop: u32,
    pub request: u32,
    pub slot: u32,
    pub op: u32,
    pub outcome: u32,
    pub value: u32,
    pub bytes: u64,
    pub reply: u64,
    pub used: u64,
}

/// An instruction: the index of its function, without the imports, and its index in the body, as wasm-objdump lists it.
#[repr(C)]
#[derive(Clone, Copy, Debug, Default)]
pub struct Site {
    pub function: u64,
    pub operation: u64,
}

/// An instruction: the index of its function, with the imports, its index in the body, and its byte in the module.
#[repr(C)]
#[derive(Clone, Copy, Debug, Default)]
pub struct Place {
    pub function: u64,
    pub instruction: u64,
    pub byte: u64,
}

/// What a module has that a host looks for: 1 if it does, and the size of its memory in pages.
#[repr(C)]
#[derive(Clone, Copy, Debug, Default)]
pub struct Shape {
    pub main: u32,
    pub work: u32,
    pub after_work: u32,
    pub table: u32,
    pub pages: u32,
    pub most_pages: u32,
    pub imports: u64,
}

/// The status of a loop.
#[repr(C)]
#[derive(Clone, Copy, Debug, Default)]
pub struct Standing {
    pub alive: u32,
    pub failed: u32,
    pub outstanding: u64,
}

/// The progress of a loop iteration: the last step, the poll timeout in milliseconds, and how many callbacks ran so far.
#[repr(C)]
#[derive(Clone, Copy, Debug, Default)]
pub struct Turned {
    pub did: Did,
    pub wait: u64,
    pub callbacks: u32,
    zero: u32,
}

#[repr(C)]
#[derive(Clone, Copy, Debug)]
struct CallLimits {
    fuel: u64,
    depth: u32,
    zero: u32,
}

/// How a call of an instance ended.
#[repr(C)]
#[derive(Clone, Copy, Debug, Default)]
pub struct Ended {
    pub ending: u32,
    pub trap: u32,
    results: u64,
    pub used: u64,
    result: [u64; 16],
}

impl Ended {
    /// The results, an i32 in the low half; empty if the call did not return.
    pub fn results(&self) -> &[u64] {
        &self.result[..self.results as usize]
    }

    fn returned(self) -> Result<Ended, Error> {
        if self.ending == RETURN { Ok(self) } else { Err(self.stopped()) }
    }

    fn stopped(&self) -> Error {
        Error::Stopped { ending: self.ending, trap: self.trap, used: self.used }
    }

    /// How the call ended: "out of fuel, after 1,000,000 units".
    pub fn text(&self) -> String {
        ended_text(self.ending, self.trap, self.used)
    }
}

impl Did {
    /// How the callback of a step ended: "out of fuel, after 1,000,000 units".
    pub fn text(&self) -> String {
        ended_text(self.ending, self.trap, self.used)
    }
}

impl About {
    /// How the job ended, or "not over yet, after 7 units".
    pub fn text(&self) -> String {
        written(|into, room, count| unsafe { wasmloop_outcome_text(self.outcome, self.value, self.used, into, room, count) })
    }
}

fn ended_text(ending: u32, trap: u32, used: u64) -> String {
    written(|into, room, count| unsafe { wasmloop_ended_text(ending, trap, used, into, room, count) })
}

/// A text that the library always has of its own numbers.
fn written(call: impl FnMut(*mut u8, usize, &mut u64) -> i32) -> String {
    text(call).ok().flatten().unwrap_or_default()
}

/// The type of a function. Each parameter and each result is 1 for i32, 2 for i64.
#[repr(C)]
#[derive(Clone, Copy, Debug)]
pub struct Signature {
    params: u64,
    results: u64,
    param: [u8; 256],
    result: [u8; 16],
}

impl Signature {
    pub fn params(&self) -> &[u8] {
        &self.param[..self.params as usize]
    }

    pub fn results(&self) -> &[u8] {
        &self.result[..self.results as usize]
    }
}

/// An export, as `Module::export_at` lists it.
#[repr(C)]
#[derive(Clone, Copy, Debug, Default)]
pub struct Listed {
    length: u64,
    /// 0 a function, 1 a table, 2 a memory, 3 a global.
    pub kind: u32,
    zero: u32,
}

/// A function that a module exports, looked up once for `Instance::call_at`.
#[derive(Clone, Debug)]
pub struct Export {
    name: String,
    number: u64,
}

/// A number with its type, 1 for i32 or 2 for i64. An i32 is in the low half.
#[repr(C)]
#[derive(Clone, Copy, Debug, Default)]
pub struct Number {
    pub value_type: u32,
    zero: u32,
    pub number: u64,
}

extern "C" {
    fn wasmloop_version() -> *const c_char;
    fn wasmloop_status_name(status: i32) -> *const c_char;
    fn wasmloop_status_text(status: i32) -> *const c_char;
    fn wasmloop_ended_text(ending: u32, trap: u32, used: u64, into: *mut u8, room: usize, count: *mut u64) -> i32;
    fn wasmloop_outcome_text(outcome: u32, value: u32, used: u64, into: *mut u8, room: usize, count: *mut u64) -> i32;
    fn wasmloop_trap_name(trap: u32) -> *const c_char;
    fn wasmloop_fault_name(stage: u32, code: u32) -> *const c_char;
    fn wasmloop_ending_name(ending: u32) -> *const c_char;
    fn wasmloop_outcome_name(outcome: u32) -> *const c_char;
    fn wasmloop_warning(module: *const Handle, number: u32, into: *mut u8, room: usize, count: *mut u64) -> i32;
    fn wasmloop_explain(bytes: *const u8, length: usize, into: *mut u8, room: usize, count: *mut u64) -> i32;
    fn wasmloop_load_told(
        bytes: *const u8,
        length: usize,
        module: *mut Handle,
        fault: *mut Fault,
        into: *mut u8,
        room: usize,
        count: *mut u64,
    ) -> i32;
    fn wasmloop_kind(handle: *const Handle, kind: *mut u32) -> i32;
    fn wasmloop_held(handle: *const Handle, bytes: *mut u64) -> i32;
    fn wasmloop_share(module: *const Handle, other: *mut Handle) -> i32;
    fn wasmloop_shape_of(module: *const Handle, shape: *mut Shape) -> i32;
    fn wasmloop_work(module: *const Handle, task: *const Task, bytes: *const u8, length: usize, job: *mut Handle) -> i32;
    fn wasmloop_job_new(module: *const Handle, task: *const Task, bytes: *const u8, length: usize, job: *mut Handle) -> i32;
    fn wasmloop_function(module: *const Handle, name: *const c_char, signature: *mut Signature) -> i32;
    fn wasmloop_instance(module: *const Handle, limits: *const CallLimits, made: *mut Handle, ended: *mut Ended) -> i32;
    fn wasmloop_call(
        instance: *mut Handle,
        name: *const c_char,
        args: *const u64,
        count: usize,
        limits: *const CallLimits,
        ended: *mut Ended,
    ) -> i32;
    fn wasmloop_export_number(module: *const Handle, name: *const c_char, number: *mut u64) -> i32;
    fn wasmloop_export_at(module: *const Handle, number: u64, name: *mut u8, room: usize, listed: *mut Listed, signature: *mut Signature) -> i32;
    fn wasmloop_call_at(
        instance: *mut Handle,
        number: u64,
        args: *const u64,
        count: usize,
        limits: *const CallLimits,
        ended: *mut Ended,
    ) -> i32;
    fn wasmloop_call_begin(instance: *mut Handle, name: *const c_char, args: *const u64, count: usize, limits: *const CallLimits) -> i32;
    fn wasmloop_call_run_for(instance: *mut Handle, units: u64, over: *mut u32, ended: *mut Ended) -> i32;
    fn wasmloop_call_for(
        instance: *mut Handle,
        number: u64,
        args: *const u64,
        count: usize,
        limits: *const CallLimits,
        units: u64,
        over: *mut u32,
        ended: *mut Ended,
    ) -> i32;
    fn wasmloop_call_end(instance: *mut Handle, ended: *mut Ended) -> i32;
    fn wasmloop_call_bytes(
        instance: *mut Handle,
        number: u64,
        args: *const u64,
        count: usize,
        bytes: *const u8,
        length: usize,
        limits: *const CallLimits,
        ended: *mut Ended,
    ) -> i32;
    fn wasmloop_view(instance: *mut Handle, bytes: *mut *const u8, count: *mut u64) -> i32;
    fn wasmloop_size(handle: *mut Handle, bytes: *mut u64) -> i32;
    fn wasmloop_read(handle: *mut Handle, at: u32, into: *mut u8, length: usize) -> i32;
    fn wasmloop_write(instance: *mut Handle, at: u32, from: *const u8, length: usize) -> i32;
    fn wasmloop_global(handle: *mut Handle, name: *const c_char, value: *mut Number) -> i32;
    fn wasmloop_loop(module: *const Handle, limits: *const Limits, made: *mut Handle) -> i32;
    fn wasmloop_drop(handle: *mut Handle) -> i32;
    fn wasmloop_step(handle: *mut Handle, did: *mut Did) -> i32;
    fn wasmloop_step_for(handle: *mut Handle, units: u64, over: *mut u32, did: *mut Did) -> i32;
    fn wasmloop_turn(handle: *mut Handle, most_callbacks: u32, told: *mut Turned) -> i32;
    fn wasmloop_turn_for(handle: *mut Handle, most_callbacks: u32, units: u64, over: *mut u32, told: *mut Turned) -> i32;
    fn wasmloop_emits(handle: *mut Handle, into: *mut i64, room: usize, count: *mut u32) -> i32;
    fn wasmloop_clock(handle: *mut Handle, ms: u64, now: *mut u64) -> i32;
    fn wasmloop_hint(handle: *mut Handle, ms: *mut u64) -> i32;
    fn wasmloop_async_send(handle: *mut Handle, number: u32) -> i32;
    fn wasmloop_cancel(handle: *mut Handle, request: u32, answer: *mut i32) -> i32;
    fn wasmloop_request(handle: *mut Handle, op: u32, bytes: *const u8, length: usize, answer: *mut i32) -> i32;
    fn wasmloop_standing_of(handle: *mut Handle, standing: *mut Standing) -> i32;
    fn wasmloop_stop(handle: *mut Handle, into: *mut Site, room: usize, count: *mut u64) -> i32;
    fn wasmloop_stop_places(handle: *mut Handle, into: *mut Place, room: usize, count: *mut u64) -> i32;
    fn wasmloop_stop_told(bytes: *const u8, length: usize, handle: *mut Handle, into: *mut u8, room: usize, count: *mut u64) -> i32;
    fn wasmloop_next_job(handle: *mut Handle, job: *mut Handle) -> i32;
    fn wasmloop_job_start(handle: *mut Handle, job: *mut Handle) -> i32;
    fn wasmloop_job_run(job: *mut Handle) -> i32;
    fn wasmloop_job_run_for(job: *mut Handle, units: u64, over: *mut u32) -> i32;
    fn wasmloop_job_about(job: *mut Handle, about: *mut About) -> i32;
    fn wasmloop_job_input(job: *mut Handle, into: *mut u8, room: usize, count: *mut u64) -> i32;
    fn wasmloop_job_reply(job: *mut Handle, into: *mut u8, room: usize, count: *mut u64) -> i32;
    fn wasmloop_job_view(job: *mut Handle, bytes: *mut *const u8, count: *mut u64) -> i32;
    fn wasmloop_accept(handle: *mut Handle, job: *mut Handle) -> i32;
}

/// A static string of the library.
fn static_text(at: *const c_char) -> Option<&'static str> {
    if at.is_null() { None } else { unsafe { CStr::from_ptr(at) }.to_str().ok() }
}

/// The version of the library.
pub fn version() -> &'static str {
    static_text(unsafe { wasmloop_version() }).unwrap_or_default()
}

/// The name of a status, such as "MEMORY".
pub fn status_name(status: i32) -> Option<&'static str> {
    static_text(unsafe { wasmloop_status_name(status) })
}

/// The name of a trap, such as "division by zero".
pub fn trap_name(trap: u32) -> Option<&'static str> {
    static_text(unsafe { wasmloop_trap_name(trap) })
}

/// The name of an ending: "return", "trap", "depth" or "spent".
pub fn ending_name(ending: u32) -> Option<&'static str> {
    static_text(unsafe { wasmloop_ending_name(ending) })
}

/// The name of an outcome, such as "done".
pub fn outcome_name(outcome: u32) -> Option<&'static str> {
    static_text(unsafe { wasmloop_outcome_name(outcome) })
}

impl Fault {
    /// The fault's name, such as "Opcode".
    pub fn name(&self) -> Option<&'static str> {
        static_text(unsafe { wasmloop_fault_name(self.stage, self.code) })
    }
}

/// Why a call failed. `Display` gives one sentence.
#[derive(Clone, Debug)]
pub enum Error {
    /// The bytes are not a module that this host runs; `why` is the sentence of `wasmloop check`.
    Refused { fault: Fault, why: String },
    /// A number is out of range.
    Range { what: &'static str, value: u64, least: u64, most: u64 },
    /// No function is exported under this name.
    NoFunction(String),
    /// The function takes another number of arguments, or one is out of its type's range.
    Arguments { why: String },
    /// A work function, a call of an instance, or its start function did not return.
    Stopped { ending: u32, trap: u32, used: u64 },
    /// A call of an instance or a work function passed its deadline; `place` is the backtrace as text. The instance lives on, with the memory and globals
    /// that a call with exactly that much fuel leaves.
    Late { used: u64, place: String },
    /// The job or the instance is in the wrong state for this call. `status` is `KIND`, or `NONE` for a reply that does not exist.
    State { status: i32, why: &'static str },
    /// Another status of wasmloop.h.
    Status(i32),
}

impl fmt::Display for Error {
    fn fmt(&self, to: &mut fmt::Formatter) -> fmt::Result {
        match self {
            Error::Refused { why, .. } | Error::Arguments { why } => to.write_str(why),
            Error::Range { what, value, least, most } => write!(to, "{what} {value} is out of range: expected {least} to {most}"),
            Error::NoFunction(name) => write!(to, "no function is exported as {name:?}"),
            Error::Stopped { ending, trap, used } => {
                let units = if *used == 1 { "unit" } else { "units" };
                match *ending {
                    DEPTH => write!(to, "the call exceeded the call-depth limit, after {used} {units}"),
                    SPENT => write!(to, "the call ran out of fuel, after {used} {units}"),
                    _ => write!(to, "the call trapped: {}, after {used} {units}", trap_name(*trap).unwrap_or_default()),
                }
            }
            Error::Late { used, place } => {
                let (units, comma) = (if *used == 1 { "unit" } else { "units" }, if place.is_empty() { "" } else { ", " });
                write!(to, "the call passed its deadline, after {used} {units}{comma}{place}")
            }
            Error::State { why, .. } => to.write_str(why),
            Error::Status(status) => to.write_str(sentence(*status)),
        }
    }
}

fn sentence(status: i32) -> &'static str {
    match status {
        KIND => "the object is of another kind, or in another state",
        REFUSED => "the bytes are not those of the module",
        _ => static_text(unsafe { wasmloop_status_text(status) }).unwrap_or("an unknown status"),
    }
}

impl std::error::Error for Error {}

fn done(status: i32) -> Result<(), Error> {
    if status == OK { Ok(()) } else { Err(Error::Status(status)) }
}

/// Why a call on a job failed, by the job's state.
fn job_error(job: &mut Handle, status: i32) -> Error {
    let mut about = About::default();
    unsafe { wasmloop_job_about(job, &mut about) };
    let why = match (status, about.outcome) {
        (KIND, NOT_RUN) if about.used > 0 => "the job is paused: continue it with run_for",
        (KIND, NOT_RUN) => "the job has not run yet",
        (KIND, _) => "the job has already run",
        (NONE, WORK_TRAP) => "the job has no reply: it trapped",
        (NONE, WORK_DEPTH) => "the job has no reply: it exceeded the call-depth limit",
        (NONE, WORK_SPENT) => "the job has no reply: it ran out of fuel",
        (NONE, WORK_MEMORY) => "the job has no reply: an allocation failed",
        (NONE, _) => "the job has no reply: it has not run yet",
        _ => return Error::Status(status),
    };
    Error::State { status, why }
}

/// Why a call on an instance failed: `call`, `begin` and `write` fail with `KIND` while a call is in progress.
fn instance_error(_instance: &mut Handle, status: i32) -> Error {
    if status == KIND { Error::State { status, why: "a call is in progress" } } else { Error::Status(status) }
}

/// Why a call on a loop failed: each but `step_for` and `turn_for` fails with `KIND` while a callback is paused.
fn loop_error(_loop: &mut Handle, status: i32) -> Error {
    loop_failed(status)
}

fn loop_failed(status: i32) -> Error {
    if status == KIND { Error::State { status, why: "a callback is paused: continue it with step_for or turn_for" } } else { Error::Status(status) }
}

fn loop_done(status: i32) -> Result<(), Error> {
    if status == OK { Ok(()) } else { Err(loop_failed(status)) }
}

fn is_paused(of: &Handle) -> bool {
    let mut kind = 0;
    unsafe { wasmloop_kind(of, &mut kind) == OK && kind >= HOLDS_PAUSED }
}

fn job_done(job: &mut Handle, status: i32) -> Result<(), Error> {
    if status == OK { Ok(()) } else { Err(job_error(job, status)) }
}

/// False if the loop does not wait for the job.
fn known(of: &mut Handle, job: &mut Handle, status: i32) -> Result<bool, Error> {
    match status {
        STRANGER => Ok(false),
        KIND if is_paused(of) => Err(loop_failed(status)),
        _ => job_done(job, status).map(|()| true),
    }
}

fn within(what: &'static str, value: u64, least: u64, most: u64) -> Result<(), Error> {
    if (least..=most).contains(&value) { Ok(()) } else { Err(Error::Range { what, value, least, most }) }
}

fn depth_is_right(depth: u32) -> Result<(), Error> {
    within("depth", depth.into(), 1, MOST_CALLS as u64)
}

fn call_limits(fuel: u64, depth: u32) -> Result<CallLimits, Error> {
    depth_is_right(depth).map(|()| CallLimits { fuel, depth, zero: 0 })
}

/// The name of an export as a C string. No name has a NUL.
fn export(name: &str) -> Result<CString, Error> {
    CString::new(name).map_err(|_| Error::NoFunction(name.into()))
}

fn exported(status: i32, name: &str) -> Result<(), Error> {
    if status == NONE { Err(Error::NoFunction(name.into())) } else { done(status) }
}

/// Which argument of a call the function does not take.
fn arguments_error(module: &Module, name: &str, args: &[u64]) -> Error {
    let signature = match module.function(name) {
        Ok(signature) => signature,
        Err(why) => return why,
    };
    let (kinds, most) = (signature.params(), u64::from(u32::MAX));
    let wide = args.iter().zip(kinds).position(|(&arg, &kind)| kind == 1 && arg > most);
    let why = match wide {
        _ if kinds.len() != args.len() => {
            format!("{name} takes {} argument{}, got {}", kinds.len(), if kinds.len() == 1 { "" } else { "s" }, args.len())
        }
        Some(at) => format!("argument {} (i32) {} is out of range: expected 0 to {most}; pass -1 as {most}", at + 1, args[at]),
        None => return Error::Status(ARGUMENTS),
    };
    Error::Arguments { why }
}

/// The text that a call writes; `None` if it returns `NONE`.
fn text(mut call: impl FnMut(*mut u8, usize, &mut u64) -> i32) -> Result<Option<String>, Error> {
    let (mut into, mut count) = (Vec::new(), 0);
    loop {
        match call(into.as_mut_ptr(), into.len(), &mut count) {
            NONE => return Ok(None),
            status => done(status)?,
        }
        if count as usize <= into.len() {
            into.truncate(count as usize);
            return Ok(Some(String::from_utf8_lossy(&into).into_owned()));
        }
        into = vec![0; count as usize];
    }
}

/// Why bytes are rejected, in the words of `wasmloop check`; `None` if they are not.
pub fn explain(bytes: &[u8]) -> Result<Option<String>, Error> {
    text(|into, room, count| unsafe { wasmloop_explain(bytes.as_ptr(), bytes.len(), into, room, count) })
}

type Fails = fn(&mut Handle, i32) -> Error;

/// The backtrace as text, by the bytes that the module keeps; `None` if it returned.
fn stop_text(handle: &mut Handle, fails: Fails) -> Result<Option<String>, Error> {
    let at: *mut Handle = handle;
    let told = text(|into, room, count| unsafe { wasmloop_stop_told(null(), 0, at, into, room, count) });
    told.map_err(|error| if let Error::Status(status) = error { fails(handle, status) } else { error })
}

/// The backtrace as text, given the bytes of the module; `None` if it returned.
fn stop_told(handle: &mut Handle, bytes: &[u8], fails: Fails) -> Result<Option<String>, Error> {
    let at: *mut Handle = handle;
    let told = text(|into, room, count| unsafe { wasmloop_stop_told(bytes.as_ptr(), bytes.len(), at, into, room, count) });
    told.map_err(|error| if let Error::Status(status) = error { fails(handle, status) } else { error })
}

/// A backtrace that a call of the library copies: none if it returns `NONE`.
fn backtrace<T: Clone + Default>(
    handle: &mut Handle,
    call: unsafe extern "C" fn(*mut Handle, *mut T, usize, *mut u64) -> i32,
    most: usize,
    fails: Fails,
) -> Result<Vec<T>, Error> {
    let (mut sites, mut count) = (vec![T::default(); most], 0);
    match unsafe { call(handle, sites.as_mut_ptr(), most, &mut count) } {
        OK => {}
        NONE => count = 0,
        status => return Err(fails(handle, status)),
    }
    sites.truncate(count as usize);
    Ok(sites)
}

/// The value of the global exported under a name; `None` if there is none.
fn global(handle: &mut Handle, name: &str, fails: Fails) -> Result<Option<Number>, Error> {
    // (no name has a NUL)
    let (told, mut value) = (CString::new(name).ok(), Number::default());
    match told.map_or(NONE, |it| unsafe { wasmloop_global(handle, it.as_ptr(), &mut value) }) {
        OK => Ok(Some(value)),
        NONE => Ok(None),
        status => Err(fails(handle, status)),
    }
}

/// The size of the memory in bytes.
fn size(handle: &mut Handle, fails: Fails) -> Result<u64, Error> {
    let mut bytes = 0;
    match unsafe { wasmloop_size(handle, &mut bytes) } {
        OK => Ok(bytes),
        status => Err(fails(handle, status)),
    }
}

/// How many bytes an object has, as wasmloop_held counts them.
fn held(handle: &mut Handle, fails: Fails) -> Result<u64, Error> {
    let mut bytes = 0;
    match unsafe { wasmloop_held(handle, &mut bytes) } {
        OK => Ok(bytes),
        status => Err(fails(handle, status)),
    }
}

fn has(handle: &mut Handle, at: u32, length: usize, fails: Fails) -> Result<(), Error> {
    within("end", u64::from(at) + length as u64, 0, size(handle, fails)?)
}

fn read(handle: &mut Handle, at: u32, into: &mut [u8], fails: Fails) -> Result<(), Error> {
    has(handle, at, into.len(), fails)?;
    done(unsafe { wasmloop_read(handle, at, into.as_mut_ptr(), into.len()) })
}

/// A loaded module. Several threads may use it at once.
pub struct Module(Handle);

// Calls on a shared module only read it, except for atomic reference counts.
unsafe impl Sync for Module {}

/// An event loop, with the progress of its iteration.
pub struct Loop(Handle, Turned);

/// An instance. It keeps its memory from call to call; calls to "uv" imports return -1.
pub struct Instance(Handle, Module);

/// One run of a module's `uv_work`. Any thread may run it.
pub struct Job(Handle);

type MakesJob = unsafe extern "C" fn(*const Handle, *const Task, *const u8, usize, *mut Handle) -> i32;

impl Module {
    /// Loads a module from its bytes. `Error::Refused` says why they are rejected.
    pub fn new(bytes: &[u8]) -> Result<Module, Error> {
        let (mut made, mut fault, mut room, mut count) = (NOTHING, Fault::default(), vec![0; 1024], 0);
        match unsafe { wasmloop_load_told(bytes.as_ptr(), bytes.len(), &mut made, &mut fault, room.as_mut_ptr(), room.len(), &mut count) } {
            REFUSED if count > room.len() as u64 => Err(Error::Refused { fault, why: explain(bytes)?.unwrap_or_default() }),
            REFUSED => Err(Error::Refused { fault, why: String::from_utf8_lossy(&room[..count as usize]).into_owned() }),
            status => done(status).map(|()| Module(made)),
        }
    }

    /// A second handle to the same module, reference-counted.
    pub fn share(&self) -> Result<Module, Error> {
        let mut other = NOTHING;
        done(unsafe { wasmloop_share(&self.0, &mut other) })?;
        Ok(Module(other))
    }

    /// How many bytes the module has.
    pub fn held(&self) -> Result<u64, Error> {
        let mut bytes = 0;
        done(unsafe { wasmloop_held(&self.0, &mut bytes) })?;
        Ok(bytes)
    }

    /// What the module has that a host looks for.
    pub fn shape(&self) -> Result<Shape, Error> {
        let mut shape = Shape::default();
        done(unsafe { wasmloop_shape_of(&self.0, &mut shape) })?;
        Ok(shape)
    }

    /// What the module lacks to run on a loop, in the words of `wasmloop check`.
    pub fn warnings(&self) -> Result<Vec<String>, Error> {
        (0..).map_while(|number| text(|into, room, count| unsafe { wasmloop_warning(&self.0, number, into, room, count) }).transpose()).collect()
    }

    /// Why an `Instance` of the module may not do what it is written for: the functions of "uv" that it imports return -1 there, but for those
    /// that read and reply in a `call_bytes`. `None` if it imports none.
    pub fn instance_warning(&self) -> Result<Option<String>, Error> {
        let imports = self.shape()?.imports;
        let functions = if imports == 1 { "function" } else { "functions" };
        let advice = "use call_bytes for in_copy and out_set, a Loop for timers and queued work, a Job for uv_work";
        let why = || format!("the module imports {imports} {functions} of \"uv\", which return -1 in an instance: {advice}");
        Ok((imports > 0).then(why))
    }

    /// The type of the function exported under a name.
    pub fn function(&self, name: &str) -> Result<Signature, Error> {
        let (told, mut signature) = (export(name)?, Signature { params: 0, results: 0, param: [0; 256], result: [0; 16] });
        exported(unsafe { wasmloop_function(&self.0, told.as_ptr(), &mut signature) }, name)?;
        Ok(signature)
    }

    /// The export of this number, from 0 on in the module's order: its name, its kind, and the type of a function. `None` if there are no more.
    pub fn export_at(&self, number: u64) -> Result<Option<(String, Listed, Option<Signature>)>, Error> {
        let (mut listed, mut signature) = (Listed::default(), Signature { params: 0, results: 0, param: [0; 256], result: [0; 16] });
        let name = text(|into, room, count| {
            let status = unsafe { wasmloop_export_at(&self.0, number, into, room, &mut listed, &mut signature) };
            *count = listed.length;
            status
        })?;
        Ok(name.map(|name| (name, listed, (listed.kind == 0).then_some(signature))))
    }

    /// The function exported under a name, for `Instance::call_at`.
    pub fn export(&self, name: &str) -> Result<Export, Error> {
        let (told, mut number) = (export(name)?, 0);
        exported(unsafe { wasmloop_export_number(&self.0, told.as_ptr(), &mut number) }, name)?;
        Ok(Export { name: name.into(), number })
    }

    fn make(&self, call: MakesJob, task: Task, bytes: &[u8]) -> Result<Job, Error> {
        let mut job = NOTHING;
        depth_is_right(task.depth)?;
        within("length", bytes.len() as u64, 0, 65_536)?;
        done(unsafe { call(&self.0, &task, bytes.as_ptr(), bytes.len(), &mut job) })?;
        Ok(Job(job))
    }

    /// A job for `Job::run`, with at most 65,536 input bytes.
    pub fn job(&self, task: Task, bytes: &[u8]) -> Result<Job, Error> {
        self.make(wasmloop_job_new, task, bytes)
    }

    /// A job that has run in this thread. Check the outcome in `Job::about` before the value.
    pub fn work(&self, task: Task, bytes: &[u8]) -> Result<Job, Error> {
        self.make(wasmloop_work, task, bytes)
    }

    /// The same for at most so long, as `Job::run_within`.
    pub fn work_within(&self, task: Task, bytes: &[u8], deadline: Duration) -> Result<Job, Error> {
        let mut job = self.job(task, bytes)?;
        job.run_within(deadline)?;
        Ok(job)
    }
}

impl Instance {
    /// Creates an instance and runs its start function, if any. `Error::Stopped` if that does not return. Functions of "uv" return -1 in it, as
    /// `Module::instance_warning` says.
    pub fn new(module: &Module, fuel: u64, depth: u32) -> Result<Instance, Error> {
        let (mut made, mut ended, limits) = (NOTHING, Ended::default(), call_limits(fuel, depth)?);
        match unsafe { wasmloop_instance(&module.0, &limits, &mut made, &mut ended) } {
            NOT_STARTED => Err(ended.stopped()),
            status => done(status).and_then(|()| Ok(Instance(made, module.share()?))),
        }
    }

    /// What the status of a call of the function under a name says.
    fn called(&mut self, status: i32, name: &str, args: &[u64]) -> Result<(), Error> {
        match status {
            KIND => Err(instance_error(&mut self.0, status)),
            ARGUMENTS => Err(arguments_error(&self.1, name, args)),
            _ => exported(status, name),
        }
    }

    /// Calls the function exported under a name. A call that does not return is not rolled back, and you may call the instance again.
    pub fn call(&mut self, name: &str, args: &[u64], fuel: u64, depth: u32) -> Result<Ended, Error> {
        let (told, limits, mut ended) = (export(name)?, call_limits(fuel, depth)?, Ended::default());
        let status = unsafe { wasmloop_call(&mut self.0, told.as_ptr(), args.as_ptr(), args.len(), &limits, &mut ended) };
        self.called(status, name, args)?;
        ended.returned()
    }

    /// `call` for at most so long: after that, `Error::Late`. A call is given up at most 100,000 units of fuel behind its deadline, about a millisecond.
    pub fn call_within(&mut self, name: &str, args: &[u64], fuel: u64, depth: u32, deadline: Duration) -> Result<Ended, Error> {
        let (export, began) = (self.1.export(name)?, Instant::now());
        let mut ended = self.call_for(&export, args, fuel, depth, SLICE)?;
        while ended.is_none() && began.elapsed() < deadline {
            ended = self.run_for(SLICE)?;
        }
        match ended {
            Some(ended) => Ok(ended),
            None => Err(Error::Late { used: self.end_call()?, place: self.stop_text()?.unwrap_or_default() }),
        }
    }

    /// `call` of a function that `Module::export` of this instance's module returned: no name is looked up.
    pub fn call_at(&mut self, export: &Export, args: &[u64], fuel: u64, depth: u32) -> Result<Ended, Error> {
        let (limits, mut ended) = (call_limits(fuel, depth)?, Ended::default());
        let status = unsafe { wasmloop_call_at(&mut self.0, export.number, args.as_ptr(), args.len(), &limits, &mut ended) };
        self.called(status, &export.name, args)?;
        ended.returned()
    }

    /// `call_at` with at most 65,536 bytes, which the guest reads by `in_len` and `in_copy`, as in a job. What it sets by `out_set` is the `reply`.
    pub fn call_bytes(&mut self, export: &Export, args: &[u64], bytes: &[u8], fuel: u64, depth: u32) -> Result<Ended, Error> {
        let (limits, mut ended) = (call_limits(fuel, depth)?, Ended::default());
        within("length", bytes.len() as u64, 0, 65_536)?;
        let status = unsafe {
            let (args, count, bytes, length) = (args.as_ptr(), args.len(), bytes.as_ptr(), bytes.len());
            wasmloop_call_bytes(&mut self.0, export.number, args, count, bytes, length, &limits, &mut ended)
        };
        self.called(status, &export.name, args)?;
        ended.returned()
    }

    /// The reply of the last `call_bytes`, in place: what the guest set in it, however it ended.
    pub fn reply(&mut self) -> Result<&[u8], Error> {
        let (mut bytes, mut count) = (null(), 0);
        done(unsafe { wasmloop_view(&mut self.0, &mut bytes, &mut count) })?;
        // (they stay until the next call with bytes, or until the instance is dropped, each of which needs it mutably)
        Ok(if count == 0 { &[] } else { unsafe { std::slice::from_raw_parts(bytes, count as usize) } })
    }

    /// Begins a call and runs its first slice, of at most `units` units of fuel. `None` if the call is not over: then go on with `run_for`, or `end_call`.
    pub fn call_for(&mut self, export: &Export, args: &[u64], fuel: u64, depth: u32, units: u64) -> Result<Option<Ended>, Error> {
        let (limits, mut over, mut ended) = (call_limits(fuel, depth)?, 0, Ended::default());
        within("units", units, 1, u64::MAX)?;
        let status = unsafe {
            wasmloop_call_for(&mut self.0, export.number, args.as_ptr(), args.len(), &limits, units, &mut over, &mut ended)
        };
        self.called(status, &export.name, args)?;
        if over == 1 { ended.returned().map(Some) } else { Ok(None) }
    }

    /// Begins a call to be run in slices; nothing runs yet. Until it is over, you may inspect the instance; every call that would change it, but
    /// `run_for` and `end_call`, fails.
    pub fn begin(&mut self, name: &str, args: &[u64], fuel: u64, depth: u32) -> Result<(), Error> {
        let (told, limits) = (export(name)?, call_limits(fuel, depth)?);
        let status = unsafe { wasmloop_call_begin(&mut self.0, told.as_ptr(), args.as_ptr(), args.len(), &limits) };
        self.called(status, name, args)
    }

    /// Runs a slice of that call: at most `units` units of fuel. `None` if the call is not over; else the result of `call`.
    pub fn run_for(&mut self, units: u64) -> Result<Option<Ended>, Error> {
        let (mut over, mut ended) = (0, Ended::default());
        within("units", units, 1, u64::MAX)?;
        match unsafe { wasmloop_call_run_for(&mut self.0, units, &mut over, &mut ended) } {
            KIND => return Err(Error::State { status: KIND, why: "no call is in progress" }),
            status => done(status)?,
        }
        if over == 1 { ended.returned().map(Some) } else { Ok(None) }
    }

    /// Ends that call before it is over, and returns the fuel that it has used. The instance keeps its memory and globals, as a call with exactly that much
    /// fuel leaves them, and may be called again.
    pub fn end_call(&mut self) -> Result<u64, Error> {
        let mut ended = Ended::default();
        match unsafe { wasmloop_call_end(&mut self.0, &mut ended) } {
            KIND => Err(Error::State { status: KIND, why: "no call is in progress" }),
            status => done(status).map(|()| ended.used),
        }
    }

    /// The value of the global exported under a name; `None` if there is none. This, `size` and `read` also answer while a call is in progress:
    /// as a call with just the fuel that it has used would leave the instance.
    pub fn global(&mut self, name: &str) -> Result<Option<Number>, Error> {
        global(&mut self.0, name, instance_error)
    }

    /// The size of the memory in bytes.
    pub fn size(&mut self) -> Result<u64, Error> {
        size(&mut self.0, instance_error)
    }

    /// How many bytes the instance has: its memory as large as it is now, its table, the room of its calls, and its last reply.
    pub fn held(&mut self) -> Result<u64, Error> {
        held(&mut self.0, instance_error)
    }

    /// Copies bytes out of the memory, from address `at`.
    pub fn read(&mut self, at: u32, into: &mut [u8]) -> Result<(), Error> {
        read(&mut self.0, at, into, instance_error)
    }

    /// Copies bytes into the memory, from address `at`.
    pub fn write(&mut self, at: u32, from: &[u8]) -> Result<(), Error> {
        has(&mut self.0, at, from.len(), instance_error)?;
        match unsafe { wasmloop_write(&mut self.0, at, from.as_ptr(), from.len()) } {
            OK => Ok(()),
            status => Err(instance_error(&mut self.0, status)),
        }
    }

    /// The backtrace of the last call, innermost first; empty if it returned.
    pub fn stop(&mut self) -> Result<Vec<Site>, Error> {
        backtrace(&mut self.0, wasmloop_stop, MOST_CALLS, instance_error)
    }

    /// The same backtrace with function indexes that include the imports, and the byte of each instruction in the module.
    pub fn stop_places(&mut self) -> Result<Vec<Place>, Error> {
        backtrace(&mut self.0, wasmloop_stop_places, MOST_CALLS, instance_error)
    }

    /// The backtrace as text; `None` if it returned.
    pub fn stop_text(&mut self) -> Result<Option<String>, Error> {
        stop_text(&mut self.0, instance_error)
    }

    /// The backtrace as text, if these are the bytes of the module; `None` if it returned.
    pub fn stop_told(&mut self, bytes: &[u8]) -> Result<Option<String>, Error> {
        stop_told(&mut self.0, bytes, instance_error)
    }
}

impl Job {
    /// Runs the job in this thread.
    pub fn run(&mut self) -> Result<(), Error> {
        let status = unsafe { wasmloop_job_run(&mut self.0) };
        job_done(&mut self.0, status)
    }

    /// Runs a slice: at most `units` units of fuel, or fewer once it has copied more than 64 bytes for each. True if the job is over, with
    /// the result that `run` gives.
    pub fn run_for(&mut self, units: u64) -> Result<bool, Error> {
        let mut over = 0;
        within("units", units, 1, u64::MAX)?;
        let status = unsafe { wasmloop_job_run_for(&mut self.0, units, &mut over) };
        job_done(&mut self.0, status)?;
        Ok(over == 1)
    }

    /// Runs the job until it is over, or so long: then `Error::Late`, and the job is paused. It looks at the clock after each 100,000 units of fuel.
    pub fn run_within(&mut self, deadline: Duration) -> Result<(), Error> {
        let began = Instant::now();
        while !self.run_for(SLICE)? {
            if began.elapsed() >= deadline {
                return Err(Error::Late { used: self.about()?.used, place: self.stop_text()?.unwrap_or_default() });
            }
        }
        Ok(())
    }

    /// The job's request, its outcome, and the fuel that it has used so far.
    pub fn about(&mut self) -> Result<About, Error> {
        let mut about = About::default();
        let status = unsafe { wasmloop_job_about(&mut self.0, &mut about) };
        job_done(&mut self.0, status)?;
        Ok(about)
    }

    /// The signed result of `uv_work`; `Error::Stopped` if it did not return.
    pub fn value(&mut self) -> Result<i32, Error> {
        let about = self.about()?;
        let (ending, trap) = match about.outcome {
            WORK_DONE => return Ok(about.value as i32),
            WORK_TRAP => (TRAP, about.value),
            WORK_DEPTH => (DEPTH, 0),
            WORK_SPENT => (SPENT, 0),
            _ => return Err(job_error(&mut self.0, NONE)),
        };
        Err(Error::Stopped { ending, trap, used: about.used })
    }

    /// How many bytes the job has: its input and its reply; while it is paused 65,536 for that, and its memory, its table and the room of its calls.
    pub fn held(&mut self) -> Result<u64, Error> {
        held(&mut self.0, job_error)
    }

    /// The input bytes.
    pub fn input(&mut self) -> Result<Vec<u8>, Error> {
        let (mut bytes, mut count) = (vec![0; self.about()?.bytes as usize], 0);
        let status = unsafe { wasmloop_job_input(&mut self.0, bytes.as_mut_ptr(), bytes.len(), &mut count) };
        job_done(&mut self.0, status)?;
        Ok(bytes)
    }

    /// The reply, in place. An error unless the outcome is `WORK_DONE`.
    pub fn reply(&mut self) -> Result<&[u8], Error> {
        let (mut bytes, mut count) = (null(), 0);
        let status = unsafe { wasmloop_job_view(&mut self.0, &mut bytes, &mut count) };
        job_done(&mut self.0, status)?;
        // (they stay until the job is dropped, accepted or run, each of which needs it mutably)
        Ok(if count == 0 { &[] } else { unsafe { std::slice::from_raw_parts(bytes, count as usize) } })
    }

    /// Copies as much of the reply as fits, and returns its whole length.
    pub fn reply_into(&mut self, into: &mut [u8]) -> Result<usize, Error> {
        let mut count = 0;
        let status = unsafe { wasmloop_job_reply(&mut self.0, into.as_mut_ptr(), into.len(), &mut count) };
        job_done(&mut self.0, status)?;
        Ok(count as usize)
    }

    /// The backtrace, innermost first, at most 17 sites; empty if it returned.
    pub fn stop(&mut self) -> Result<Vec<Site>, Error> {
        backtrace(&mut self.0, wasmloop_stop, MOST_SITES, job_error)
    }

    /// The same backtrace with function indexes that include the imports, and the byte of each instruction in the module.
    pub fn stop_places(&mut self) -> Result<Vec<Place>, Error> {
        backtrace(&mut self.0, wasmloop_stop_places, MOST_SITES, job_error)
    }

    /// The backtrace as text; `None` if it returned.
    pub fn stop_text(&mut self) -> Result<Option<String>, Error> {
        stop_text(&mut self.0, job_error)
    }

    /// The backtrace as text, if these are the bytes of the module; `None` if it returned.
    pub fn stop_told(&mut self, bytes: &[u8]) -> Result<Option<String>, Error> {
        stop_told(&mut self.0, bytes, job_error)
    }
}

impl Loop {
    /// Creates a loop of a module.
    pub fn new(module: &Module, limits: Limits) -> Result<Loop, Error> {
        let mut made = NOTHING;
        depth_is_right(limits.depth)?;
        done(unsafe { wasmloop_loop(&module.0, &limits, &mut made) })?;
        Ok(Loop(made, Turned::default()))
    }

    /// The backtrace of the last callback, innermost first; empty if it returned.
    pub fn stop(&mut self) -> Result<Vec<Site>, Error> {
        backtrace(&mut self.0, wasmloop_stop, MOST_CALLS, loop_error)
    }

    /// The same backtrace with function indexes that include the imports, and the byte of each instruction in the module.
    pub fn stop_places(&mut self) -> Result<Vec<Place>, Error> {
        backtrace(&mut self.0, wasmloop_stop_places, MOST_CALLS, loop_error)
    }

    /// The backtrace as text; `None` if it returned.
    pub fn stop_text(&mut self) -> Result<Option<String>, Error> {
        stop_text(&mut self.0, loop_error)
    }

    /// The backtrace as text, if these are the bytes of the module; `None` if it returned.
    pub fn stop_told(&mut self, bytes: &[u8]) -> Result<Option<String>, Error> {
        stop_told(&mut self.0, bytes, loop_error)
    }

    /// Takes steps until the loop enters its timers phase, a callback emits values or does not return, `most_callbacks` callbacks have run,
    /// or the loop is over or has failed.
    pub fn turn(&mut self, most_callbacks: u32) -> Result<Turned, Error> {
        within("most_callbacks", most_callbacks.into(), 1, u32::MAX.into())?;
        loop_done(unsafe { wasmloop_turn(&mut self.0, most_callbacks, &mut self.1) })?;
        Ok(self.1)
    }

    /// Takes steps as `turn` does, until their callbacks have used `units` units of fuel in this call, of which `most_callbacks` counts those that
    /// end in it. `None` if the turn is not over: call it again, without sleeping.
    pub fn turn_for(&mut self, most_callbacks: u32, units: u64) -> Result<Option<Turned>, Error> {
        let mut over = 0;
        within("most_callbacks", most_callbacks.into(), 1, u32::MAX.into())?;
        within("units", units, 1, u64::MAX)?;
        loop_done(unsafe { wasmloop_turn_for(&mut self.0, most_callbacks, units, &mut over, &mut self.1) })?;
        Ok(if over == 1 { Some(self.1) } else { None })
    }

    /// The progress of the iteration: of a turn that is not over, the last step that is.
    pub fn turned(&self) -> Turned {
        self.1
    }

    /// The value of the global exported under a name, as the last callback left it, also the one that failed; `None` if there is none.
    pub fn global(&mut self, name: &str) -> Result<Option<Number>, Error> {
        global(&mut self.0, name, loop_error)
    }

    /// The size of the memory in bytes.
    pub fn size(&mut self) -> Result<u64, Error> {
        size(&mut self.0, loop_error)
    }

    /// How many bytes the loop has: the memory as large as it is now, the table, and the room of its calls.
    pub fn held(&mut self) -> Result<u64, Error> {
        held(&mut self.0, loop_error)
    }

    /// Copies bytes out of the memory, from address `at`.
    pub fn read(&mut self, at: u32, into: &mut [u8]) -> Result<(), Error> {
        read(&mut self.0, at, into, loop_error)
    }

    /// Cancels a request, and returns what the guest's own cancel returns.
    pub fn cancel(&mut self, request: u32) -> Result<i32, Error> {
        let mut answer = 0;
        loop_done(unsafe { wasmloop_cancel(&mut self.0, request, &mut answer) })?;
        Ok(answer)
    }

    /// Submits a work request from the host, processed like the guest's own. Returns what `queue_work` returns; -1 if the loop is over or
    /// has failed.
    pub fn request(&mut self, op: u32, bytes: &[u8]) -> Result<i32, Error> {
        let mut answer = 0;
        loop_done(unsafe { wasmloop_request(&mut self.0, op, bytes.as_ptr(), bytes.len(), &mut answer) })?;
        Ok(answer)
    }

    /// The status of the loop.
    pub fn standing(&mut self) -> Result<Standing, Error> {
        let mut standing = Standing::default();
        loop_done(unsafe { wasmloop_standing_of(&mut self.0, &mut standing) })?;
        Ok(standing)
    }

    /// Takes one step.
    pub fn step(&mut self) -> Result<Did, Error> {
        let mut did = Did::default();
        loop_done(unsafe { wasmloop_step(&mut self.0, &mut did) })?;
        Ok(did)
    }

    /// Takes a slice of a step, whose callback uses at most `units` units of fuel. `None` if the callback is paused: until it is over, every call
    /// but this and `turn_for` fails.
    pub fn step_for(&mut self, units: u64) -> Result<Option<Did>, Error> {
        let (mut over, mut did) = (0, Did::default());
        within("units", units, 1, u64::MAX)?;
        loop_done(unsafe { wasmloop_step_for(&mut self.0, units, &mut over, &mut did) })?;
        Ok(if over == 1 { Some(did) } else { None })
    }

    /// The values that the last callback emitted.
    pub fn emits(&mut self) -> Result<Vec<i64>, Error> {
        let (mut room, mut count) = ([0; 64], 0);
        loop_done(unsafe { wasmloop_emits(&mut self.0, room.as_mut_ptr(), room.len(), &mut count) })?;
        Ok(room[..count as usize].to_vec())
    }

    /// Advances the clock to `ms` milliseconds, and returns the new time. A smaller `ms` has no effect.
    pub fn clock(&mut self, ms: u64) -> Result<u64, Error> {
        let mut now = 0;
        loop_done(unsafe { wasmloop_clock(&mut self.0, ms, &mut now) })?;
        Ok(now)
    }

    /// The poll timeout in milliseconds; `None` if the loop needs replies or sends. Call it only after a step that entered the timers phase.
    pub fn hint(&mut self) -> Result<Option<u64>, Error> {
        let mut ms = 0;
        loop_done(unsafe { wasmloop_hint(&mut self.0, &mut ms) })?;
        Ok(if ms == u64::MAX { None } else { Some(ms) })
    }

    /// Sends to the guest's async `number`, counted from 0 in the order of creation.
    pub fn send(&mut self, number: u32) -> Result<(), Error> {
        within("number", number.into(), 0, 15)?;
        loop_done(unsafe { wasmloop_async_send(&mut self.0, number) })
    }

    /// A job for the lowest request not returned yet.
    pub fn next_job(&mut self) -> Result<Option<Job>, Error> {
        let mut job = NOTHING;
        match unsafe { wasmloop_next_job(&mut self.0, &mut job) } {
            NONE => Ok(None),
            status => loop_done(status).map(|()| Some(Job(job))),
        }
    }

    /// Reports that a job is about to run. False if its request was cancelled or started before, or is another loop's.
    pub fn start(&mut self, job: &mut Job) -> Result<bool, Error> {
        let status = unsafe { wasmloop_job_start(&mut self.0, &mut job.0) };
        known(&mut self.0, &mut job.0, status)
    }

    /// Completes the request of a job that has run, which leaves nothing in `job`. False if the reply is stale: the request was cancelled, or is
    /// another loop's. After an error, the job is as it was: run it, or continue the paused callback, and offer it again.
    pub fn accept(&mut self, job: &mut Job) -> Result<bool, Error> {
        let status = unsafe { wasmloop_accept(&mut self.0, &mut job.0) };
        known(&mut self.0, &mut job.0, status)
    }
}
