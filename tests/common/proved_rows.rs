//! The proved number of rows that fit, linked from the archive that `tools/build host` writes. include/chronicle.h declares
//! the same.

#[link(name = "host", kind = "static")]
extern "C" {
    fn chronicle_rows_that_fit(length: usize) -> usize;
}

pub fn rows_that_fit(length: usize) -> usize {
    // SAFETY: the call takes a number and gives a number.
    unsafe { chronicle_rows_that_fit(length) }
}
