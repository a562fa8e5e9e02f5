//! The calls of libcomplexity.a for Rust, as complexity.h declares them and says what they answer.

// no program needs all of them
#![allow(dead_code)]

unsafe extern "C" {
    pub fn complexity_blank(text: *const u8, text_length: usize, output: *mut u8, output_length: usize) -> u32;
    pub fn complexity_scan(
        tree: *const u8,
        tree_length: usize,
        work: *mut u8,
        work_length: usize,
        records: *mut u8,
        records_length: usize,
        counts: *mut u8,
        counts_length: usize,
    ) -> u32;
    pub fn complexity_check(
        tree: *const u8,
        tree_length: usize,
        baseline: *const u8,
        baseline_length: usize,
        work: *mut u8,
        work_length: usize,
        records: *mut u8,
        records_length: usize,
        output: *mut u8,
        output_length: usize,
        counts: *mut u8,
        counts_length: usize,
    ) -> u32;
    pub fn complexity_update(
        tree: *const u8,
        tree_length: usize,
        work: *mut u8,
        work_length: usize,
        records: *mut u8,
        records_length: usize,
        output: *mut u8,
        output_length: usize,
        counts: *mut u8,
        counts_length: usize,
    ) -> u32;
    pub fn complexity_report(
        tree: *const u8,
        tree_length: usize,
        work: *mut u8,
        work_length: usize,
        records: *mut u8,
        records_length: usize,
        output: *mut u8,
        output_length: usize,
        counts: *mut u8,
        counts_length: usize,
    ) -> u32;
}
