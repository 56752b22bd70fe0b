//! The calls of the C interface that read and write instants and lengths, with slices in the place of pointers and
//! lengths, so that one test runs on the proved ones and on any others.

use crate::by_words;
use common::paper;

/// What a reader answers: 1 and the tenths, or 0 and 0 where the text is malformed.
#[repr(C)]
#[derive(Clone, Copy, Debug, PartialEq)]
pub struct Tenths {
    pub well_formed: u32,
    pub tenths: i64,
}

#[derive(Clone, Copy)]
pub struct Calls {
    pub read_instant: fn(&[u8]) -> Tenths,
    pub read_length: fn(&[u8]) -> Tenths,
    pub write_instant: fn(i32, &mut [u8]) -> usize,
}

/// By the words of document 01 and request N11: what all others are compared with.
pub const BY_WORDS: Calls = Calls {
    read_instant: |text| answer(by_words::instant(text)),
    read_length: |text| answer(by_words::length(text)),
    write_instant: |tenths, out| written(&by_words::spelled(tenths), out),
};

/// As the other tests read and spell.
pub const OF_OTHER_TESTS: Calls = Calls {
    read_instant: |text| answer(paper::instant(text)),
    read_length: |text| answer(paper::length(text).map(|tenths| tenths as i64)),
    write_instant: |tenths, out| written(&paper::spelled(tenths.into()), out),
};

/// What a reader answers for these tenths, or for none.
pub fn answer(tenths: Option<i64>) -> Tenths {
    Tenths { well_formed: tenths.is_some().into(), tenths: tenths.unwrap_or(0) }
}

/// Writes a text at the front of an output and answers its length; nothing, and 0, where that is too short.
pub fn written(text: &str, out: &mut [u8]) -> usize {
    match out.get_mut(..text.len()) {
        Some(front) => front.copy_from_slice(text.as_bytes()),
        None => return 0,
    }
    text.len()
}
