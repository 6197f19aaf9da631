//! The work function that is put into `src/guest/mod.rs`, with `uv.rs` beside it, as a native program: `native OP <
//! request` prints the line of `wasmloop work`.
mod guest;

use std::cell::RefCell;
use std::io::Read;

const EINVAL: i32 = -22;

thread_local! {
    static REQUEST: RefCell<Vec<u8>> = RefCell::default();
    static REPLY: RefCell<Vec<u8>> = RefCell::default();
}

#[no_mangle]
extern "C" fn in_len() -> i32 {
    REQUEST.with(|request| request.borrow().len() as i32)
}

#[no_mangle]
unsafe extern "C" fn in_copy(to: *mut u8, from: usize, count: usize) -> i32 {
    REQUEST.with(|request| match request.borrow().get(from..from + count) {
        Some(bytes) => {
            // SAFETY: the guest says that it has `count` bytes at `to`.
            std::slice::from_raw_parts_mut(to, count).copy_from_slice(bytes);
            0
        }
        None => EINVAL,
    })
}

#[no_mangle]
unsafe extern "C" fn out_set(place: *const u8, length: usize) -> i32 {
    if length > 65536 {
        return EINVAL;
    }
    // SAFETY: the guest says that it has `length` bytes at `place`.
    let reply = std::slice::from_raw_parts(place, length).to_vec();
    REPLY.with(|kept| *kept.borrow_mut() = reply);
    0
}

fn main() {
    let operation = std::env::args().nth(1).and_then(|word| word.parse().ok()).expect("native OP < request");
    let mut request = Vec::new();
    std::io::stdin().read_to_end(&mut request).expect("the request");
    REQUEST.with(|kept| *kept.borrow_mut() = request);
    let result = guest::uv_work(operation);
    REPLY.with(|reply| {
        let reply = reply.borrow();
        let hex: String = reply.iter().map(|byte| format!("{byte:02x}")).collect();
        let gap = if reply.is_empty() { "" } else { " " };
        println!("done {result} bytes {}{gap}{hex}", reply.len());
    });
}
