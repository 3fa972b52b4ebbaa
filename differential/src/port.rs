//! The exported call of crate `lines_export`. A slice goes over as its address and its length.
mod c {
    extern "C" {
        pub fn cardrun_lines(records: *const u8, records_length: usize, lines: *mut u8, lines_length: usize) -> usize;
    }
}

/// Writes the lines of the records over the front of `lines` and gives how many bytes they are.
pub fn cardrun_lines(records: &[u8], lines: &mut [u8]) -> usize {
    unsafe { c::cardrun_lines(records.as_ptr(), records.len(), lines.as_mut_ptr(), lines.len()) }
}
