//! sha2 = { version = "0.10", default-features = false }
use sha2::{Digest, Sha256, Sha512};

pub fn run(bytes: &[u8]) -> Vec<u8> {
    let mut reply = Sha256::digest(bytes).to_vec();
    reply.extend(Sha512::digest(bytes));
    reply
}
