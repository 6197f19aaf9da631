//! A work function by the crate `miniz_oxide`: operations 0 to 10 pack the bytes at that level, 100 unpacks them. The
//! result is the number of the reply's bytes, -1 for bytes that cannot be unpacked.
#![cfg_attr(target_os = "none", no_std)]

extern crate alloc;

#[macro_use]
mod uv;

use miniz_oxide::deflate::compress_to_vec_zlib;
use miniz_oxide::inflate::decompress_to_vec_zlib;

uv_work!(|operation| {
    let mut bytes = alloc::vec![0; uv::in_len() as usize];
    uv::in_copy(&mut bytes, 0);
    let reply = match operation {
        0..=10 => compress_to_vec_zlib(&bytes, operation as u8),
        100 => match decompress_to_vec_zlib(&bytes) {
            Ok(reply) => reply,
            Err(_) => return -1,
        },
        _ => return uv::EINVAL,
    };
    match uv::out_set(&reply) {
        0 => reply.len() as i32,
        refused => refused,
    }
});

// Without `std`, as for wasm32v1-none; where there is `std` it brings both.
#[cfg(target_os = "none")]
uv_allocator!();
#[cfg(target_os = "none")]
uv_panic!();
