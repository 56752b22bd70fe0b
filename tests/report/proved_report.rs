//! The proved report, linked from the archive that `tools/build host` writes. include/chronicle.h declares the same.

#[link(name = "host", kind = "static")]
extern "C" {
    fn chronicle_print_report(
        input: *const u8,
        length: usize,
        table: *mut i32,
        table_length: usize,
        out: *mut u8,
        out_length: usize,
    ) -> usize;
}

pub fn call(input: &[u8], table: &mut [i32], out: &mut [u8]) -> usize {
    let (numbers, bytes) = (table.as_mut_ptr(), out.as_mut_ptr());
    // SAFETY: each slice is valid for its whole length during the call and lent to nobody else, and the call keeps no
    // pointer.
    unsafe { chronicle_print_report(input.as_ptr(), input.len(), numbers, table.len(), bytes, out.len()) }
}
