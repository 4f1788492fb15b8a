//! The C functions as they stand in `include/roadfinch.h`, which says what each means. A slice is two arguments: a pointer
//! and the number of its items. Prefer the safe functions at the root of this crate.

unsafe extern "C" {
    pub fn rf_write_record(
        n: u32,
        ids: *const u32,
        ids_len: usize,
        out: *mut u8,
        out_len: usize,
        written: *mut u64,
    ) -> u32;

    pub fn rf_read_record(
        n: u32,
        input: *const u8,
        input_len: usize,
        ids: *mut u32,
        ids_len: usize,
        given: *mut u64,
        taken: *mut u64,
    ) -> u32;

    pub fn rf_make_index(
        bytes: *const u8,
        bytes_len: usize,
        count: u64,
        out: *mut u64,
        out_len: usize,
    ) -> u32;

    pub fn rf_reverse_runs(
        runs: *const u64,
        runs_len: usize,
        n: u32,
        out: *mut u64,
        out_len: usize,
        count: *mut u64,
    ) -> u32;

    pub fn rf_reverse_runs_in_place(
        runs: *mut u64,
        runs_len: usize,
        n: u32,
        count: *mut u64,
    ) -> u32;

    pub fn rf_append_runs(
        out: *mut u64,
        out_len: usize,
        used: u64,
        out_count: u32,
        piece: *const u64,
        piece_len: usize,
        piece_count: u32,
        reverse: bool,
        count: *mut u64,
        vertices: *mut u64,
    ) -> u32;

    pub fn rf_rotate_runs(
        runs: *const u64,
        runs_len: usize,
        n: u32,
        pivot: u32,
        reverse: bool,
        out: *mut u64,
        out_len: usize,
        count: *mut u64,
    ) -> u32;

    pub fn rf_write_runs(
        runs: *const u64,
        runs_len: usize,
        out: *mut u8,
        out_len: usize,
        written: *mut u64,
    ) -> u32;

    pub fn rf_read_runs(
        bytes: *const u8,
        bytes_len: usize,
        out: *mut u64,
        out_len: usize,
        given: *mut u64,
        taken: *mut u64,
    ) -> u32;
}
