//! blake3 = { version = "1.3", default-features = false, features = ["pure"] }

pub fn run(bytes: &[u8]) -> Vec<u8> {
    blake3::hash(bytes).as_bytes().to_vec()
}
