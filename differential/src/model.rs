//! What the rules add to the original: the tree's layout, the table of refusals, records, and every buffer after a call.
//! Written from docs/RULES.md and include/complexity.h.

use crate::original::{blanked, functions, Fun};

pub const MAX_TREE: usize = 16_777_216;
pub const MAX_BASELINE: usize = 33_554_432;
pub const MAX_FILES: usize = 1024;
pub const MAX_PATH: usize = 1024;
pub const MAX_FUNCTIONS: usize = 8192;
pub const RECORD_WIDTH: usize = 32;
const COUNT_WIDTH: usize = 4;
const ENTRY_WIDTH: usize = 16;

pub struct File {
    pub path: String,
    pub text: String,
    pub text_at: usize,
}

/// Where the k-th entry of a tree's table stands; the table ends where the one past the last would.
pub fn entry_at(k: usize) -> usize {
    COUNT_WIDTH + ENTRY_WIDTH * k
}

/// A path's bytes as they are ordered: / below every other.
pub fn rank(path: &[u8]) -> Vec<u16> {
    path.iter().map(|&b| if b == b'/' { 0 } else { u16::from(b) + 1 }).collect()
}

/// The files of a tree, or the first of the refusals 1 to 4.
pub fn files_of(tree: &[u8]) -> Result<Vec<File>, usize> {
    let number = |at: usize| -> usize { u32::from_le_bytes([tree[at], tree[at + 1], tree[at + 2], tree[at + 3]]) as usize };
    if tree.len() > MAX_TREE {
        return Err(1);
    }
    if tree.len() < COUNT_WIDTH || number(0) > MAX_FILES || entry_at(number(0)) > tree.len() {
        return Err(2);
    }
    let mut parts = Vec::new();
    let mut place = entry_at(number(0));
    for k in 0..number(0) {
        let entry = entry_at(k);
        let path_end = place + number(entry + 4);
        let text_end = path_end + number(entry + 12);
        if number(entry) != place
            || !(1..=MAX_PATH).contains(&number(entry + 4))
            || number(entry + 8) != path_end
            || text_end > tree.len()
        {
            return Err(2);
        }
        parts.push((&tree[place..path_end], &tree[path_end..text_end], path_end));
        place = text_end;
    }
    if place != tree.len() {
        return Err(2);
    }
    let good =
        |path: &[u8]| !path.contains(&b'\t') && !path.contains(&b'\n') && path[0] != b'#' && std::str::from_utf8(path).is_ok();
    if !parts.iter().all(|p| good(p.0)) || !parts.windows(2).all(|w| rank(w[0].0) < rank(w[1].0)) {
        return Err(3);
    }
    let text = |bytes: &[u8]| String::from_utf8(bytes.to_vec()).map_err(|_| 4_usize);
    parts.iter().map(|p| Ok(File { path: text(p.0)?, text: text(p.1)?, text_at: p.2 })).collect()
}

/// An accepted or refused tree with all that the calls need of it.
pub struct Tree {
    pub bytes: Vec<u8>,
    pub refusal: usize,
    pub files: Vec<File>,
    pub funs: Vec<Fun>,
    /// each function's file number and where its name stands in the tree
    places: Vec<(usize, usize)>,
}

/// What one call needs beside the tree.
#[derive(Default)]
pub struct Need {
    /// bytes of counts
    pub counts: usize,
    /// report in the definitions: sum entries for each file
    pub short_of_sums: bool,
    pub baseline: usize,
    pub listing: usize,
}

impl Tree {
    pub fn read(bytes: Vec<u8>) -> Tree {
        let (refusal, files) = match files_of(&bytes) {
            Ok(files) => (0, files),
            Err(number) => (number, Vec::new()),
        };
        let mut funs = Vec::new();
        let mut places = Vec::new();
        for (k, file) in files.iter().enumerate() {
            for (fun, name_at) in functions(&file.path, &file.text) {
                funs.push(fun);
                places.push((k, file.text_at + name_at));
            }
        }
        Tree { bytes, refusal, files, funs, places }
    }

    fn work_after(&self, work: &mut [u8]) {
        for file in &self.files {
            let blanked = blanked(&file.text);
            work[file.text_at..file.text_at + blanked.len()].copy_from_slice(&blanked);
        }
    }

    fn room(records: &[u8]) -> usize {
        MAX_FUNCTIONS.min(records.len() / RECORD_WIDTH)
    }

    fn records_after(&self, records: &mut [u8]) {
        let room = Self::room(records);
        for (k, (f, (file, name_at))) in self.funs.iter().zip(&self.places).take(room).enumerate() {
            let numbers = [*file, *name_at, f.name.len(), f.line, f.lines, f.cyclomatic as usize, f.nesting as usize, f.params];
            put_numbers(&mut records[RECORD_WIDTH * k..], &numbers);
        }
    }

    pub fn sums_after(&self, sums: &[(usize, usize)]) -> Vec<(usize, usize)> {
        let mut after = sums.to_vec();
        for k in 0..self.files.len() {
            let of_file = self.funs.iter().zip(&self.places).filter(|(_, place)| place.0 == k);
            after[k] = (k, of_file.map(|(f, _)| f.cyclomatic as usize).sum());
        }
        after
    }

    /// A call's number: the first that applies.
    pub fn number(&self, lent: &Lent, need: &Need) -> usize {
        if self.refusal != 0 {
            self.refusal
        } else if lent.work.len() < self.bytes.len() || lent.counts.len() < need.counts {
            5
        } else if need.short_of_sums {
            6
        } else if need.baseline > MAX_BASELINE {
            7
        } else if Self::room(&lent.records) < self.funs.len() {
            8
        } else if lent.output.len() < need.listing {
            9
        } else {
            0
        }
    }
}

#[derive(Clone, Default)]
pub struct Lent {
    pub work: Vec<u8>,
    pub records: Vec<u8>,
    pub output: Vec<u8>,
    pub counts: Vec<u8>,
}

fn put_numbers(into: &mut [u8], numbers: &[usize]) {
    for (place, &n) in into.chunks_exact_mut(4).zip(numbers) {
        place.copy_from_slice(&u32::try_from(n).expect("a number below 2^32").to_le_bytes());
    }
}

/// The buffers after a call with this number, whose listing and counts are these.
pub fn after(tree: &Tree, lent: &Lent, number: usize, listing: &[u8], counts: &[usize]) -> Lent {
    let mut all = lent.clone();
    if [0, 8, 9].contains(&number) {
        tree.work_after(&mut all.work);
        tree.records_after(&mut all.records);
    }
    if number == 0 {
        all.output[..listing.len()].copy_from_slice(listing);
        put_numbers(&mut all.counts, counts);
    }
    all
}
