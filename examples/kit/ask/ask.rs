//! Questions: a function of a plug-in asks its host, and goes on with the answer. `ask.h` documents them; this is the same for guests in Rust,
//! without `ask.c`. Pass the linked module through `python3 -m wasmloop.ask IN OUT`.
//!
//!     mod ask;
//!     let mut price = [0; 4];
//!     let known = ask::ask(&article.to_le_bytes(), &mut price) == Ok(4);

use core::cell::UnsafeCell;

/// Another call of this instance waits for its answer: one question at a time.
pub const BUSY: i32 = -1;
/// The host has no answer. It may return other negative numbers as well.
#[allow(dead_code)]
pub const NONE: i32 = -2;

/// The bytes for the locals of the calls that wait. If they do not suffice, the function that asks traps: unreachable.
const STACK: usize = 4096;

#[link(wasm_import_module = "asyncify")]
extern "C" {
    fn start_unwind(kept: *mut Kept);
    fn stop_unwind();
    fn start_rewind(kept: *mut Kept);
    fn stop_rewind();
}

/// Asyncify's stack, which it fills from `at`.
#[repr(C)]
struct Kept {
    at: *mut u8,
    end: *mut u8,
}

/// A question, as the host reads it.
#[repr(C)]
struct Question {
    bytes: *const u8,
    length: usize,
    answer: *mut u8,
    room: usize,
}

#[derive(Clone, Copy, PartialEq)]
enum State {
    Idle,
    Asked,
    Waiting,
    Answered,
}

struct Asking {
    state: State,
    now: Question,
    answered: i32,
    kept: Kept,
    stack: [u8; STACK],
}

struct Only(UnsafeCell<Asking>);

// SAFETY: an instance belongs to one thread at a time, and no other instance sees its memory.
unsafe impl Sync for Only {}

static ASKING: Only = Only(UnsafeCell::new(Asking {
    state: State::Idle,
    now: Question { bytes: core::ptr::null(), length: 0, answer: core::ptr::null_mut(), room: 0 },
    answered: 0,
    kept: Kept { at: core::ptr::null_mut(), end: core::ptr::null_mut() },
    stack: [0; STACK],
}));

/// Asks the host, and fills the front of `answer`. Returns the length of the whole answer, or what the host returned below 0.
#[inline(never)]
pub fn ask(question: &[u8], answer: &mut [u8]) -> Result<usize, i32> {
    let told = asked(Question { bytes: question.as_ptr(), length: question.len(), answer: answer.as_mut_ptr(), room: answer.len() });
    if told < 0 { Err(told) } else { Ok(told as usize) }
}

/// Returns twice: first to the host, with a number that nobody sees, then with the answer's.
#[inline(never)]
fn asked(question: Question) -> i32 {
    // SAFETY: no other reference to the static lives, since none outlives a function of this file.
    let it = unsafe { &mut *ASKING.0.get() };
    match it.state {
        State::Answered => {
            it.state = State::Idle;
            unsafe { stop_rewind() };
            it.answered
        }
        State::Idle => {
            it.now = question;
            it.kept = Kept { at: it.stack.as_mut_ptr(), end: unsafe { it.stack.as_mut_ptr().add(STACK) } };
            it.state = State::Asked;
            unsafe { start_unwind(&mut it.kept) };
            0
        }
        _ => BUSY,
    }
}

/// After each call: the question, if one waits; else null, and the call has returned.
#[no_mangle]
extern "C" fn ask_next() -> *const () {
    let it = unsafe { &mut *ASKING.0.get() };
    if it.state == State::Asked {
        unsafe { stop_unwind() };
        it.state = State::Waiting;
    }
    if it.state != State::Waiting {
        return core::ptr::null();
    }
    core::ptr::addr_of!(it.now).cast()
}

/// The answer is written, and the same function is called next. Returns 0, or -1 if no question waits.
#[no_mangle]
extern "C" fn ask_answer(length: i32) -> i32 {
    let it = unsafe { &mut *ASKING.0.get() };
    if it.state != State::Waiting {
        return -1;
    }
    it.answered = length;
    it.state = State::Answered;
    unsafe { start_rewind(&mut it.kept) };
    0
}
