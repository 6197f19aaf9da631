//! num-bigint = { version = "0.4", default-features = false }
use num_bigint::BigUint;

/// The number of the first 60 bytes to the power of 65537 modulo 2^521 - 1.
pub fn run(bytes: &[u8]) -> Vec<u8> {
    let base = BigUint::from_bytes_be(&bytes[..bytes.len().min(60)]);
    let prime = (BigUint::from(1u8) << 521usize) - 1u8;
    base.modpow(&BigUint::from(65537u32), &prime).to_str_radix(10).into_bytes()
}
