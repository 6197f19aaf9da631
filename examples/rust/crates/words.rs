//! unicode-segmentation = "1"
//! textwrap = { version = "0.16", default-features = false }
use unicode_segmentation::UnicodeSegmentation;

/// A text in lines of 40 letters, and how many words it has.
pub fn run(bytes: &[u8]) -> Vec<u8> {
    let text = String::from_utf8_lossy(bytes);
    format!("{}\n{}", textwrap::fill(&text, 40), text.unicode_words().count()).into_bytes()
}
