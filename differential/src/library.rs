//! The calls of the proved library on slices.

#[path = "../../include/complexity.rs"]
mod complexity;

use complexity::{complexity_blank, complexity_check, complexity_report, complexity_scan, complexity_update};

/// The parts of the lent buffers that a call sees.
pub struct Slices<'a> {
    pub work: &'a mut [u8],
    pub records: &'a mut [u8],
    pub output: &'a mut [u8],
    pub counts: &'a mut [u8],
}

pub fn blank(text: &[u8], output: &mut [u8]) -> u32 {
    unsafe { complexity_blank(text.as_ptr(), text.len(), output.as_mut_ptr(), output.len()) }
}

pub fn scan(tree: &[u8], s: &mut Slices) -> u32 {
    unsafe {
        complexity_scan(
            tree.as_ptr(),
            tree.len(),
            s.work.as_mut_ptr(),
            s.work.len(),
            s.records.as_mut_ptr(),
            s.records.len(),
            s.counts.as_mut_ptr(),
            s.counts.len(),
        )
    }
}

pub fn update(tree: &[u8], s: &mut Slices) -> u32 {
    unsafe {
        complexity_update(
            tree.as_ptr(),
            tree.len(),
            s.work.as_mut_ptr(),
            s.work.len(),
            s.records.as_mut_ptr(),
            s.records.len(),
            s.output.as_mut_ptr(),
            s.output.len(),
            s.counts.as_mut_ptr(),
            s.counts.len(),
        )
    }
}

pub fn report(tree: &[u8], s: &mut Slices) -> u32 {
    unsafe {
        complexity_report(
            tree.as_ptr(),
            tree.len(),
            s.work.as_mut_ptr(),
            s.work.len(),
            s.records.as_mut_ptr(),
            s.records.len(),
            s.output.as_mut_ptr(),
            s.output.len(),
            s.counts.as_mut_ptr(),
            s.counts.len(),
        )
    }
}

pub fn check(tree: &[u8], baseline: &[u8], s: &mut Slices) -> u32 {
    unsafe {
        complexity_check(
            tree.as_ptr(),
            tree.len(),
            baseline.as_ptr(),
            baseline.len(),
            s.work.as_mut_ptr(),
            s.work.len(),
            s.records.as_mut_ptr(),
            s.records.len(),
            s.output.as_mut_ptr(),
            s.output.len(),
            s.counts.as_mut_ptr(),
            s.counts.len(),
        )
    }
}
