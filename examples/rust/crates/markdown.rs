//! pulldown-cmark = { version = "0.9", default-features = false }
use pulldown_cmark::{html, Options, Parser};

/// Markdown as HTML.
pub fn run(bytes: &[u8]) -> Vec<u8> {
    let text = String::from_utf8_lossy(bytes);
    let mut reply = String::new();
    html::push_html(&mut reply, Parser::new_ext(&text, Options::all()));
    reply.into_bytes()
}
