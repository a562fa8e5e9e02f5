//! One call of the library held against the original and the model: its number, its counts and every byte of every buffer.

use crate::library::{self, Slices};
use crate::model::{self, Lent, Need, Tree, MAX_TREE, RECORD_WIDTH};
use crate::original::{blanked, check_text, report_text, update_text};

#[derive(Clone, Copy, Debug, PartialEq, Eq, PartialOrd, Ord)]
pub enum Name {
    Blank,
    Scan,
    Check,
    Update,
    Report,
}

pub const NAMES: [Name; 5] = [Name::Blank, Name::Scan, Name::Check, Name::Update, Name::Report];

impl Name {
    pub fn text(self) -> &'static str {
        match self {
            Name::Blank => "blank",
            Name::Scan => "scan",
            Name::Check => "check",
            Name::Update => "update",
            Name::Report => "report",
        }
    }

    /// The bytes that its counts need.
    pub fn counts(self) -> usize {
        match self {
            Name::Blank => 0,
            Name::Scan => 4,
            Name::Check => 16,
            Name::Update => 12,
            Name::Report => 8,
        }
    }
}

/// How much longer than needed each buffer is, or shorter.
#[derive(Clone, Copy, Debug, Default, PartialEq, Eq)]
pub struct Slack {
    pub work: i64,
    pub records: i64,
    pub output: i64,
    pub counts: i64,
}

/// The size of a buffer with so much more or less than it needs.
pub fn with_slack(needed: usize, slack: i64) -> usize {
    (needed as i64 + slack).max(0) as usize
}

/// Bytes on both sides of a lent buffer that no call may touch.
const GUARD: usize = 24;

/// What stands behind an input: read past the end, it would change the answer.
const BEHIND: &[u8] = b"'\"*/})]>,;fn a(){}\n\t1\t1\n";

struct Buffer {
    bytes: Vec<u8>,
    from: usize,
    to: usize,
}

impl Buffer {
    /// A pattern in which each byte differs from its neighbours.
    fn new(needed: usize, slack: i64, salt: u8) -> Buffer {
        let size = with_slack(needed, slack);
        let from = GUARD + size % 8;
        let bytes = (0..from + size + GUARD).map(|k| (k as u8).wrapping_mul(37) ^ salt).collect();
        Buffer { bytes, from, to: from + size }
    }

    fn part(&self) -> &[u8] {
        &self.bytes[self.from..self.to]
    }

    fn part_mut(&mut self) -> &mut [u8] {
        &mut self.bytes[self.from..self.to]
    }

    /// The first difference from what is expected within, or from the pattern around.
    fn differs(&self, what: &str, expected: &[u8], salt: u8) -> Result<(), String> {
        let pattern = |k: usize| (k as u8).wrapping_mul(37) ^ salt;
        let outside = (0..self.from).chain(self.to..self.bytes.len());
        for k in outside {
            if self.bytes[k] != pattern(k) {
                return Err(format!("{what}: a byte outside the buffer is changed, at {}", k as i64 - self.from as i64));
            }
        }
        if self.part() == expected {
            return Ok(());
        }
        let at = self.part().iter().zip(expected).position(|(a, b)| a != b).expect("a difference");
        let near = |bytes: &[u8]| bytes[at.saturating_sub(30)..bytes.len().min(at + 50)].escape_ascii().to_string();
        Err(format!("{what} byte {at}: library \"{}\", expected \"{}\"", near(self.part()), near(expected)))
    }
}

/// An input with bytes behind it that it does not hold.
struct Input {
    bytes: Vec<u8>,
    size: usize,
}

impl Input {
    fn new(bytes: &[u8]) -> Input {
        Input { bytes: [bytes, BEHIND].concat(), size: bytes.len() }
    }

    fn part(&self) -> &[u8] {
        &self.bytes[..self.size]
    }

    fn kept(&self, what: &str, bytes: &[u8]) -> Result<(), String> {
        if self.part() == bytes && &self.bytes[self.size..] == BEHIND {
            Ok(())
        } else {
            Err(format!("{what}: the input is changed"))
        }
    }
}

fn same_number(library: u32, expected: usize) -> Result<(), String> {
    if library as usize == expected {
        Ok(())
    } else {
        Err(format!("number: library {library}, expected {expected}"))
    }
}

/// What blanking answers: its number and the output after it. The original takes a string, of which it reads the bytes only.
pub fn blank_answer(text: &[u8], output: &[u8]) -> (usize, Vec<u8>) {
    let mut after = output.to_vec();
    let number = if text.len() > MAX_TREE {
        1
    } else if output.len() < text.len() {
        5
    } else {
        0
    };
    if number == 0 {
        // SAFETY: `blanked` takes the string's bytes and asks for nothing else of it
        let text = unsafe { std::str::from_utf8_unchecked(text) };
        after[..text.len()].copy_from_slice(&blanked(text));
    }
    (number, after)
}

/// Blanking of any bytes.
pub fn compare_blank(text: &[u8], slack: i64) -> Result<usize, String> {
    let input = Input::new(text);
    let mut output = Buffer::new(text.len(), slack, 0x5a);
    let (number, expected) = blank_answer(text, output.part());
    same_number(library::blank(input.part(), output.part_mut()), number)?;
    output.differs("output", &expected, 0x5a)?;
    input.kept("text", text)?;
    Ok(number)
}

/// What the original says of a tree, for one call.
pub struct Said {
    pub listing: Vec<u8>,
    pub counts: Vec<usize>,
}

impl Said {
    pub fn of(name: Name, tree: &Tree, baseline: &[u8]) -> Said {
        let functions = tree.funs.len();
        match name {
            Name::Blank | Name::Scan => Said { listing: Vec::new(), counts: vec![functions] },
            Name::Check => {
                let (listing, regressed, stale) = check_text(&tree.funs, baseline);
                Said { counts: vec![listing.len(), functions, regressed, stale], listing }
            }
            Name::Update => {
                let (listing, recorded) = update_text(&tree.funs);
                Said { counts: vec![listing.len(), functions, recorded], listing }
            }
            Name::Report => {
                let listing = report_text(&tree.funs);
                Said { counts: vec![listing.len(), functions], listing }
            }
        }
    }
}

/// What a call on a tree answers: its number and the buffers after it.
pub fn answer(name: Name, tree: &Tree, baseline: &[u8], said: &Said, lent: &Lent) -> (usize, Lent) {
    let baseline = if name == Name::Check { baseline.len() } else { 0 };
    let need = Need { counts: name.counts(), short_of_sums: false, baseline, listing: said.listing.len() };
    let number = tree.number(lent, &need);
    (number, model::after(tree, lent, number, &said.listing, &said.counts))
}

/// A call on a tree: its number and, on success, its counts.
pub fn compare(name: Name, tree: &Tree, baseline: &[u8], slack: Slack) -> Result<(usize, Vec<usize>), String> {
    if name == Name::Blank {
        return Ok((compare_blank(&tree.bytes, slack.output)?, Vec::new()));
    }
    let said = Said::of(name, tree, baseline);
    let input = Input::new(&tree.bytes);
    let base = Input::new(baseline);
    let mut work = Buffer::new(tree.bytes.len(), slack.work, 0x11);
    let mut records = Buffer::new(RECORD_WIDTH * tree.funs.len(), slack.records, 0x22);
    let mut output = Buffer::new(said.listing.len(), slack.output, 0x33);
    let mut counts = Buffer::new(name.counts(), slack.counts, 0x44);
    let lent = Lent {
        work: work.part().to_vec(),
        records: records.part().to_vec(),
        output: output.part().to_vec(),
        counts: counts.part().to_vec(),
    };
    let (number, expected) = answer(name, tree, baseline, &said, &lent);

    let mut slices =
        Slices { work: work.part_mut(), records: records.part_mut(), output: output.part_mut(), counts: counts.part_mut() };
    let answered = match name {
        Name::Scan => library::scan(input.part(), &mut slices),
        Name::Check => library::check(input.part(), base.part(), &mut slices),
        Name::Update => library::update(input.part(), &mut slices),
        Name::Report => library::report(input.part(), &mut slices),
        Name::Blank => unreachable!("answered above"),
    };
    same_number(answered, number)?;
    counts.differs("counts", &expected.counts, 0x44)?;
    output.differs("output", &expected.output, 0x33)?;
    records.differs("records", &expected.records, 0x22)?;
    work.differs("work", &expected.work, 0x11)?;
    input.kept("tree", &tree.bytes)?;
    base.kept("baseline", baseline)?;
    Ok((number, if number == 0 { said.counts } else { Vec::new() }))
}
