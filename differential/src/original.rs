//! What the Rust original says of a text, of functions and of a baseline.

pub use crate::oracle::{blanked, Fun};

use crate::{memory, oracle};

/// A function and where its name stands in the text, which the Rust does not keep.
pub type Found = (Fun, usize);

/// The functions of a text. Where a parameter count falls below 0, the Rust's wraps and the port's is 0; that is the one known difference.
pub fn functions(path: &str, text: &str) -> Vec<Found> {
    let b = oracle::blanked(text);
    let spans = oracle::test_modules(&b);
    let mut all: Vec<Found> = Vec::new();
    let mut at = 0;
    while at < b.len() {
        if oracle::word_at(&b, at, b"fn") && !spans.iter().any(|&(from, to)| at >= from && at < to) {
            if let Some((fun, next)) = oracle::measure(path, &b, at) {
                let spaces = b[at + 2..].iter().take_while(|c| c.is_ascii_whitespace());
                all.push((fun, at + 2 + spaces.count()));
                at = next;
                continue;
            }
        }
        at += 1;
    }
    // this walk only adds the places: it must find what the original's own scan finds
    let scanned = oracle::scan(path, text);
    assert!(all.iter().map(|f| &f.0).eq(&scanned), "the walk for names strays from scan");
    for (fun, _) in &mut all {
        if fun.params == usize::MAX {
            fun.params = 0;
        }
    }
    all
}

/// Whether some parameter count of the text falls below 0.
pub fn falls_below(text: &str) -> bool {
    oracle::scan("", text).iter().any(|fun| fun.params == usize::MAX)
}

pub fn report_text(funs: &[Fun]) -> Vec<u8> {
    oracle::report(funs);
    memory::printed().into_bytes()
}

/// The text that update writes, and the number of functions in its closing line.
pub fn update_text(funs: &[Fun]) -> (Vec<u8>, usize) {
    oracle::update(funs);
    let said = memory::printed();
    let recorded = said.split(' ').nth(1).expect("a closing line").parse().expect("a count");
    (memory::file(), recorded)
}

/// The text of check, its regression lines and its stale entries, read from the counts it prints.
pub fn check_text(funs: &[Fun], baseline: &[u8]) -> (Vec<u8>, usize, usize) {
    memory::write("", baseline).expect("in memory");
    let _exit = oracle::check(funs);
    let text = memory::printed();
    let mut rest: Vec<&str> = text.split('\n').collect();
    let mut stale = 0;
    if let Some(count) = rest[0].strip_suffix(" baseline entries no longer exist:") {
        stale = count.parse().expect("a count");
        rest.drain(..stale + 2);
    }
    let regressed = rest[0]
        .strip_prefix("complexity: ")
        .and_then(|line| line.strip_suffix(" regressions"))
        .map_or(0, |count| count.parse().expect("a count"));
    (text.into_bytes(), regressed, stale)
}
