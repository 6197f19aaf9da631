//! base64 = { version = "0.13", default-features = false, features = ["alloc"] }

/// The bytes in base 64, and whether they came back.
pub fn run(bytes: &[u8]) -> Vec<u8> {
    let text = base64::encode(bytes);
    let came_back = base64::decode(&text).map_or(false, |it| it == bytes);
    let mut reply = text.into_bytes();
    reply.push(came_back as u8);
    reply
}
