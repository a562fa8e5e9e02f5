//! Stands for `std::fs` and for printing in the original: its baseline file is a text in memory, and what it prints is kept as text.

use std::cell::RefCell;
use std::io::{Error, ErrorKind, Result};
use std::path::Path;

pub use std::fs::read_dir;

// Brought in above the original, this hides std's macro there.
macro_rules! println {
    () => { crate::memory::print("") };
    ($($part:tt)*) => { crate::memory::print(&format!($($part)*)) };
}

thread_local! {
    static PRINTED: RefCell<String> = const { RefCell::new(String::new()) };
    static FILE: RefCell<Vec<u8>> = const { RefCell::new(Vec::new()) };
}

pub fn print(line: &str) {
    PRINTED.with_borrow_mut(|text| {
        text.push_str(line);
        text.push('\n');
    });
}

pub fn printed() -> String {
    PRINTED.take()
}

pub fn file() -> Vec<u8> {
    FILE.with_borrow(Vec::clone)
}

pub fn write(_path: impl AsRef<Path>, bytes: impl AsRef<[u8]>) -> Result<()> {
    FILE.set(bytes.as_ref().to_vec());
    Ok(())
}

pub fn read_to_string(_path: impl AsRef<Path>) -> Result<String> {
    String::from_utf8(file()).map_err(|e| Error::new(ErrorKind::InvalidData, e))
}
