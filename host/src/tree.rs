//! The tree file that the calls read (layout: include/complexity.h), packed from the files found.
//!
//! The calls refuse what breaks a limit by a number. It is tested here first only to name the file.

use crate::Refusal;
use std::fs::{self, File};
use std::io::Read;
use std::path::{Path, PathBuf};

pub const MAX_FILES: usize = 1024;
const MAX_TREE: usize = 16_777_216;
const MAX_PATH: usize = 1024;
const NUMBER: usize = 4;
const ENTRY: usize = 4 * NUMBER;

pub struct Tree {
    pub bytes: Vec<u8>,
    pub paths: Vec<String>,
}

pub fn pack(files: &[PathBuf]) -> Result<Tree, Refusal> {
    let paths = files.iter().map(|file| path_text(file)).collect::<Result<Vec<_>, _>>()?;
    let head = NUMBER + ENTRY * paths.len();
    let mut size = head + paths.iter().map(String::len).sum::<usize>();
    let mut texts = Vec::with_capacity(paths.len());
    for path in &paths {
        let text = read_text(path, MAX_TREE.saturating_sub(size))?;
        size += text.len();
        texts.push(text);
    }
    Ok(Tree { bytes: laid_out(head, size, &paths, &texts), paths })
}

fn laid_out(head: usize, size: usize, paths: &[String], texts: &[Vec<u8>]) -> Vec<u8> {
    let mut bytes = Vec::with_capacity(size);
    put(&mut bytes, paths.len());
    let mut at = head;
    for (path, text) in paths.iter().zip(texts) {
        for number in [at, path.len(), at + path.len(), text.len()] {
            put(&mut bytes, number);
        }
        at += path.len() + text.len();
    }
    for (path, text) in paths.iter().zip(texts) {
        bytes.extend_from_slice(path.as_bytes());
        bytes.extend_from_slice(text);
    }
    bytes
}

fn put(bytes: &mut Vec<u8>, number: usize) {
    let number = u32::try_from(number).expect("a place in a tree is below its limit");
    bytes.extend_from_slice(&number.to_le_bytes());
}

/// The path as it stands in listings and baselines, where a tab or a newline would be read as something else.
fn path_text(file: &Path) -> Result<String, Refusal> {
    let refuse = |what: &str| Err(format!("complexity: the path {file:?} {what}"));
    let Some(path) = file.to_str() else {
        return refuse("is not UTF-8");
    };
    if path.contains('\t') || path.contains('\n') {
        return refuse("has a tab or a newline");
    }
    if path.len() > MAX_PATH {
        return refuse(&format!("has {} bytes, more than the limit of {MAX_PATH}", path.len()));
    }
    Ok(path.to_owned())
}

/// Reads one byte past the room at most: a file may be far longer than any tree.
fn read_text(path: &str, room: usize) -> Result<Vec<u8>, Refusal> {
    let cannot = |e| format!("complexity: {path} cannot be read: {e}");
    if !fs::metadata(path).map_err(cannot)?.is_file() {
        return Err(format!("complexity: {path} is not a regular file"));
    }
    let mut text = Vec::new();
    File::open(path).map_err(cannot)?.take(room as u64 + 1).read_to_end(&mut text).map_err(cannot)?;
    if text.len() > room {
        return Err(format!("complexity: with {path} the tree is over the limit of {MAX_TREE} bytes"));
    }
    match std::str::from_utf8(&text) {
        Ok(_) => Ok(text),
        Err(e) => Err(format!("complexity: {path} is not UTF-8 at byte {}", e.valid_up_to())),
    }
}
