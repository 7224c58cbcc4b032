//! What more than one driver calls of the port.

unsafe extern "C" {
    // crates/capi: a slice is a pointer and a length
    pub fn cse_print(
        rows: *const u64,
        rows_len: usize,
        answer: *const u64,
        answer_len: usize,
        out: *mut u8,
        out_len: usize,
        said: *mut u64,
        said_len: usize,
    ) -> u64;
}
