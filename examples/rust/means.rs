//! A work function with floating point, which `../kit/lower.py` rewrites: the request is numbers as text, and the reply
//! their sum, their mean, the mean of their squares, and the sum in single precision.
extern crate alloc;

#[macro_use]
mod uv;

use alloc::{format, vec, vec::Vec};

uv_work!(|_operation| {
    let mut bytes = vec![0; uv::in_len() as usize];
    uv::in_copy(&mut bytes, 0);
    let text = core::str::from_utf8(&bytes).unwrap_or("");
    let numbers: Vec<f64> = text.split_whitespace().filter_map(|word| word.parse().ok()).collect();
    let count = numbers.len() as f64;
    let sum: f64 = numbers.iter().sum();
    let squares: f64 = numbers.iter().map(|number| number * number).sum();
    let single: f32 = numbers.iter().map(|&number| number as f32).sum();
    let reply = format!("{sum} {} {:e} {single}\n", sum / count, squares / count);
    match uv::out_set(reply.as_bytes()) {
        0 => sum as i32,
        refused => refused,
    }
});
