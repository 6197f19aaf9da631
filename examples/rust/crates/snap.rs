//! snap = "1"
use snap::raw::{Decoder, Encoder};

/// The bytes packed, if they come back.
pub fn run(bytes: &[u8]) -> Vec<u8> {
    let packed = Encoder::new().compress_vec(bytes).unwrap();
    assert!(Decoder::new().decompress_vec(&packed).unwrap() == bytes);
    packed
}
