//! What a careless reader takes a text for. Readers and programs that are wrong on purpose are made with these.

/// The last line with the byte 10 that it lacks.
pub fn with_last_byte(text: &[u8]) -> Vec<u8> {
    let added: &[u8] = if text.is_empty() || text.ends_with(b"\n") { b"" } else { b"\n" };
    [text, added].concat()
}

pub fn without_carriage_returns(text: &[u8]) -> Vec<u8> {
    text.iter().copied().filter(|byte| *byte != b'\r').collect()
}
