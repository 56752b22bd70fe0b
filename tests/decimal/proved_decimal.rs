//! The proved reading and writing of instants and lengths, linked from the archive that `tools/build host` writes.
//! include/chronicle.h declares the same.

use crate::calls::{Calls, Tenths};

#[link(name = "host", kind = "static")]
extern "C" {
    fn chronicle_read_instant(bytes: *const u8, length: usize) -> Tenths;
    fn chronicle_read_length(bytes: *const u8, length: usize) -> Tenths;
    fn chronicle_write_instant(tenths: i32, out: *mut u8, out_length: usize) -> usize;
}

// The size that the C compiler gives the struct, and the archive's code takes it to have.
const _: () = assert!(size_of::<Tenths>() == 16);

// SAFETY of every call: a slice is valid for its whole length during the call, a mutable one is lent to nobody else,
// and no call keeps a pointer.
pub const CALLS: Calls = Calls {
    read_instant: |text| unsafe { chronicle_read_instant(text.as_ptr(), text.len()) },
    read_length: |text| unsafe { chronicle_read_length(text.as_ptr(), text.len()) },
    write_instant: |tenths, out| unsafe { chronicle_write_instant(tenths, out.as_mut_ptr(), out.len()) },
};
