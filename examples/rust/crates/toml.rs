//! toml = "0.5"

/// A text in TOML, written anew; or what is wrong with it.
pub fn run(bytes: &[u8]) -> Vec<u8> {
    match toml::from_slice::<toml::Value>(bytes) {
        Ok(value) => value.to_string().into_bytes(),
        Err(error) => error.to_string().into_bytes(),
    }
}
