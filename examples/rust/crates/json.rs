//! serde_json = { version = "1", default-features = false, features = ["alloc"] }
use serde_json::Value;

/// A JSON text, laid out; or what is wrong with it.
pub fn run(bytes: &[u8]) -> Vec<u8> {
    match serde_json::from_slice::<Value>(bytes) {
        Ok(value) => serde_json::to_vec_pretty(&value).unwrap(),
        Err(error) => error.to_string().into_bytes(),
    }
}
