//! A call that differs: made smaller, saved, and run again from its file.

use std::path::Path;
use std::time::{Duration, Instant};

use crate::calls::{compare, compare_blank, Name, Slack, NAMES};
use crate::inputs::{laid_out, Plain};
use crate::model::{entry_at, Tree, MAX_FILES};

#[derive(Clone)]
pub struct Failure {
    name: Name,
    /// the text to blank, or the tree
    input: Vec<u8>,
    baseline: Vec<u8>,
    slack: Slack,
    what: String,
}

impl Failure {
    pub fn new(name: Name, input: &[u8], baseline: &[u8], slack: Slack, what: String) -> Failure {
        Failure { name, input: input.to_vec(), baseline: baseline.to_vec(), slack, what }
    }

    pub fn said(&self) -> String {
        format!("{}: {}", self.name.text(), self.what)
    }

    fn size(&self) -> usize {
        self.input.len() + self.baseline.len()
    }

    /// What differs, if anything does.
    fn run(&self) -> Result<usize, String> {
        match self.name {
            Name::Blank => compare_blank(&self.input, self.slack.output),
            name => compare(name, &Tree::read(self.input.clone()), &self.baseline, self.slack).map(|answer| answer.0),
        }
    }

    /// Takes the other where it fails too.
    fn try_other(&mut self, mut other: Failure) -> bool {
        match other.run() {
            Ok(_) => false,
            Err(what) => {
                other.what = what;
                *self = other;
                true
            }
        }
    }
}

/// The files of a tree whose layout holds.
fn plain_files(tree: &[u8]) -> Option<Vec<Plain>> {
    let number = |at: usize| Some(u32::from_le_bytes(tree.get(at..at + 4)?.try_into().ok()?) as usize);
    let count = number(0).filter(|&n| n <= MAX_FILES)?;
    let mut files = Vec::new();
    for k in 0..count {
        let part = |at: usize| tree.get(number(at)?..number(at)? + number(at + 4)?).map(<[u8]>::to_vec);
        files.push((part(entry_at(k))?, part(entry_at(k) + 8)?));
    }
    (laid_out(&files) == tree).then_some(files)
}

/// Takes parts out, long ones first, as long as `fails` holds without them.
fn reduced(bytes: Vec<u8>, until: Instant, mut fails: impl FnMut(&[u8]) -> bool) -> Vec<u8> {
    let mut bytes = bytes;
    let mut size = bytes.len().div_ceil(2);
    while size > 0 && Instant::now() < until {
        let mut at = 0;
        let mut any = false;
        while at < bytes.len() && Instant::now() < until {
            let mut without = bytes.clone();
            without.drain(at..bytes.len().min(at + size));
            if fails(&without) {
                bytes = without;
                any = true;
            } else {
                at += size;
            }
        }
        if !any || size > 1 {
            size /= 2;
        }
    }
    bytes
}

fn smaller(failure: &mut Failure) {
    let until = Instant::now() + Duration::from_secs(20);
    failure.try_other(Failure { slack: Slack::default(), ..failure.clone() });
    loop {
        let before = failure.size();
        let kept = failure.clone();
        let baseline = reduced(kept.baseline.clone(), until, |b| Failure { baseline: b.to_vec(), ..kept.clone() }.run().is_err());
        failure.try_other(Failure { baseline, ..kept });
        let files = if failure.name == Name::Blank { None } else { plain_files(&failure.input) };
        if let Some(files) = files {
            smaller_files(failure, files, until);
        } else {
            let kept = failure.clone();
            let input = reduced(kept.input.clone(), until, |b| Failure { input: b.to_vec(), ..kept.clone() }.run().is_err());
            failure.try_other(Failure { input, ..kept });
        }
        if failure.size() >= before || Instant::now() >= until {
            return;
        }
    }
}

fn smaller_files(failure: &mut Failure, mut files: Vec<Plain>, until: Instant) {
    let kept = failure.clone();
    let fails = |files: &[Plain]| Failure { input: laid_out(files), ..kept.clone() }.run().is_err();
    let mut k = 0;
    while k < files.len() {
        let mut without = files.clone();
        without.remove(k);
        if fails(&without) {
            files = without;
        } else {
            k += 1;
        }
    }
    for k in 0..files.len() {
        for part in 0..2 {
            let mut other = files.clone();
            let bytes = if part == 0 { files[k].1.clone() } else { files[k].0.clone() };
            let less = reduced(bytes, until, |b| {
                *(if part == 0 { &mut other[k].1 } else { &mut other[k].0 }) = b.to_vec();
                fails(&other)
            });
            *(if part == 0 { &mut files[k].1 } else { &mut files[k].0 }) = less;
        }
    }
    failure.try_other(Failure { input: laid_out(&files), ..kept.clone() });
}

/// For each call its smallest failure, made smaller still and saved as a file that `replay` reads.
pub fn save_smallest(failures: Vec<Failure>, folder: &Path) {
    for name in NAMES {
        let of_call = failures.iter().filter(|f| f.name == name);
        let Some(mut smallest) = of_call.min_by_key(|f| f.size()).cloned() else {
            continue;
        };
        smaller(&mut smallest);
        let s = smallest.slack;
        let text = format!(
            "call {}\nslack {} {} {} {}\ninput {}\nbaseline {}\n",
            name.text(),
            s.work,
            s.records,
            s.output,
            s.counts,
            smallest.input.escape_ascii(),
            smallest.baseline.escape_ascii()
        );
        let path = folder.join(format!("{}.case", name.text()));
        std::fs::create_dir_all(folder).expect("the folder is made");
        std::fs::write(&path, &text).expect("the case is written");
        std::println!("smallest, {}:\n{text}saved: {}", smallest.said(), path.display());
    }
}

fn unescaped(text: &str) -> Vec<u8> {
    let b = text.as_bytes();
    let mut bytes = Vec::new();
    let mut k = 0;
    while k < b.len() {
        if b[k] != b'\\' {
            bytes.push(b[k]);
            k += 1;
            continue;
        }
        match b[k + 1] {
            b't' => bytes.push(b'\t'),
            b'r' => bytes.push(b'\r'),
            b'n' => bytes.push(b'\n'),
            b'x' => {
                bytes.push(u8::from_str_radix(&text[k + 2..k + 4], 16).expect("two digits"));
                k += 2;
            }
            other => bytes.push(other),
        }
        k += 2;
    }
    bytes
}

/// Runs a saved case again; the exit status.
pub fn replay(file: &Path) -> i32 {
    let text = match std::fs::read_to_string(file) {
        Ok(text) => text,
        Err(error) => {
            eprintln!("differential: {}: {error}", file.display());
            return 2;
        }
    };
    let field = |name: &str| text.lines().find_map(|l| l.strip_prefix(name)?.strip_prefix(' ')).unwrap_or("").to_string();
    let called = field("call");
    let Some(name) = NAMES.into_iter().find(|n| n.text() == called) else {
        eprintln!("differential: {}: no call '{called}'", file.display());
        return 2;
    };
    let s: Vec<i64> = field("slack").split(' ').map(|n| n.parse().expect("a number")).collect();
    let slack = Slack { work: s[0], records: s[1], output: s[2], counts: s[3] };
    let failure = Failure::new(name, &unescaped(&field("input")), &unescaped(&field("baseline")), slack, String::new());
    match failure.run() {
        Ok(number) => {
            std::println!("{called}: agrees, number {number}");
            0
        }
        Err(what) => {
            std::println!("{called}: {what}");
            1
        }
    }
}
