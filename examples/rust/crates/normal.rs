//! unicode-normalization = { version = "0.1", default-features = false, features = [] }
use unicode_normalization::UnicodeNormalization;

/// A text in the form KD, and that in the form C.
pub fn run(bytes: &[u8]) -> Vec<u8> {
    let text = String::from_utf8_lossy(bytes);
    text.nfkd().nfc().collect::<String>().into_bytes()
}
