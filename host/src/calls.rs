//! The proved calls, through their C interface (include/complexity.h), with the buffers that they are lent.

#[path = "../../include/complexity.rs"]
mod complexity;

use crate::Refusal;
use crate::tree::Tree;
use complexity::{complexity_check, complexity_report, complexity_update};
use std::path::Path;

const MAX_FUNCTIONS: usize = 8192;
const RECORD: usize = 32;
/// No function is shorter than `fn a(){}`.
const SHORTEST_FUNCTION: usize = 8;
/// More than the words and numbers of one line of any listing, and than all lines together that stand in it once.
const WORDS: usize = 256;
const HEADER: usize = 4096;
/// Check writes up to two lines for a function.
const LINES: usize = 2;

/// Update's call and report's.
type TreeCall = unsafe extern "C" fn(*const u8, usize, *mut u8, usize, *mut u8, usize, *mut u8, usize, *mut u8, usize) -> u32;

pub struct Checked {
    pub listing: Vec<u8>,
    pub regressions: u32,
}

pub struct Updated {
    pub listing: Vec<u8>,
    pub recorded: u32,
}

pub fn check(tree: &Tree, baseline: &[u8], file: &Path) -> Result<Checked, Refusal> {
    let mut lent = Buffers::new(tree, baseline.len());
    // SAFETY: each pointer is that of a slice of the length beside it, and those that are written are borrowed here alone.
    let number = unsafe {
        complexity_check(
            tree.bytes.as_ptr(),
            tree.bytes.len(),
            baseline.as_ptr(),
            baseline.len(),
            lent.work.as_mut_ptr(),
            lent.work.len(),
            lent.records.as_mut_ptr(),
            lent.records.len(),
            lent.output.as_mut_ptr(),
            lent.output.len(),
            lent.counts.as_mut_ptr(),
            lent.counts.len(),
        )
    };
    match number {
        0 => Ok(Checked { regressions: lent.count(2), listing: lent.listing() }),
        7 => Err(format!("complexity: the baseline {} is over the limit of 33554432 bytes", file.display())),
        _ => Err(lent.refusal(number, tree)),
    }
}

pub fn update(tree: &Tree) -> Result<Updated, Refusal> {
    let lent = called(complexity_update, tree)?;
    Ok(Updated { recorded: lent.count(2), listing: lent.listing() })
}

pub fn report(tree: &Tree) -> Result<Vec<u8>, Refusal> {
    Ok(called(complexity_report, tree)?.listing())
}

fn called(call: TreeCall, tree: &Tree) -> Result<Buffers, Refusal> {
    let mut lent = Buffers::new(tree, 0);
    // SAFETY: as for check.
    let number = unsafe {
        call(
            tree.bytes.as_ptr(),
            tree.bytes.len(),
            lent.work.as_mut_ptr(),
            lent.work.len(),
            lent.records.as_mut_ptr(),
            lent.records.len(),
            lent.output.as_mut_ptr(),
            lent.output.len(),
            lent.counts.as_mut_ptr(),
            lent.counts.len(),
        )
    };
    if number == 0 { Ok(lent) } else { Err(lent.refusal(number, tree)) }
}

/// Sized once, so that 5 and 9 cannot be answered: no name is longer than the tree, and a stale entry is listed in no more bytes than
/// its line has in the baseline.
struct Buffers {
    work: Vec<u8>,
    records: Vec<u8>,
    output: Vec<u8>,
    counts: [u8; 16],
}

impl Buffers {
    fn new(tree: &Tree, baseline: usize) -> Buffers {
        let functions = MAX_FUNCTIONS.min(tree.bytes.len() / SHORTEST_FUNCTION);
        let longest = tree.paths.iter().map(String::len).max().unwrap_or(0);
        let output = HEADER + baseline + LINES * (functions * (longest + WORDS) + tree.bytes.len());
        Buffers { work: vec![0; tree.bytes.len()], records: vec![0; MAX_FUNCTIONS * RECORD], output: vec![0; output], counts: [0; 16] }
    }

    fn count(&self, place: usize) -> u32 {
        number_at(&self.counts, place)
    }

    fn listing(mut self) -> Vec<u8> {
        self.output.truncate(self.count(0) as usize);
        self.output
    }

    /// Most refusals were met on the way here, with the file's name; what is left is said by the number.
    fn refusal(&self, number: u32, tree: &Tree) -> Refusal {
        if number != 8 {
            return format!("complexity: the tree is refused with the number {number} (include/complexity.h)");
        }
        // With 8 every record lent is filled, and the first number of a record is that of its file.
        let last = number_at(&self.records[(MAX_FUNCTIONS - 1) * RECORD..], 0);
        let path = tree.paths.get(last as usize).map_or("src", String::as_str);
        format!("complexity: more functions than the limit of {MAX_FUNCTIONS}, which is reached in {path}")
    }
}

fn number_at(bytes: &[u8], place: usize) -> u32 {
    let four = &bytes[4 * place..4 * place + 4];
    u32::from_le_bytes(four.try_into().expect("four bytes"))
}
