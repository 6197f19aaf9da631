//! regex = { version = "1", default-features = false, features = ["std", "unicode"] }
use regex::Regex;

/// The first 300 places where a pattern fits, a line each.
pub fn run(bytes: &[u8]) -> Vec<u8> {
    let text = String::from_utf8_lossy(bytes);
    let pattern = Regex::new(r"(?i)\b(\w+)\s+(of|the)\b|\p{Greek}+").unwrap();
    let mut reply = Vec::new();
    for found in pattern.find_iter(&text).take(300) {
        reply.extend(found.as_str().as_bytes());
        reply.push(b'\n');
    }
    reply
}
