//! The proved chart check, linked from the archive that `tools/build host` writes. include/chronicle.h declares the
//! same.

use common::plain_chart::Verdict;

#[link(name = "host", kind = "static")]
extern "C" {
    fn chronicle_check_chart(bytes: *const u8, length: usize) -> Verdict;
}

pub fn check_chart(bytes: &[u8]) -> Verdict {
    // SAFETY: the slice is readable and unchanged for its whole length during the call, which keeps nothing of it.
    unsafe { chronicle_check_chart(bytes.as_ptr(), bytes.len()) }
}
