//! csv = "1"

/// Each field and a bar behind it, a line a record.
pub fn run(bytes: &[u8]) -> Vec<u8> {
    let mut reader = csv::ReaderBuilder::new().has_headers(false).flexible(true).from_reader(bytes);
    let mut reply = Vec::new();
    for record in reader.byte_records().flatten() {
        for field in &record {
            reply.extend(field);
            reply.push(b'|');
        }
        reply.push(b'\n');
    }
    reply
}
