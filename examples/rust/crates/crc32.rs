//! crc32fast = { version = "1.3", default-features = false }

pub fn run(bytes: &[u8]) -> Vec<u8> {
    crc32fast::hash(bytes).to_le_bytes().to_vec()
}
