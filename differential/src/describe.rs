//! Bytes as a line of pieces, which tests/oracle/README.md names: texts, numbers and repetitions. Long inputs that repeat become short.

use std::fmt::Write as _;

/// A byte, or none where the byte that stood there remains.
pub type Byte = Option<u8>;

/// The longest piece that is looked for again behind itself.
const LONGEST: usize = 96;
/// Repetitions of fewer bytes are written out.
const LEAST: usize = 64;

/// The pieces, of which the first cover `numbers` bytes as numbers of 4. What remains at the end is left out.
pub fn described(bytes: &[Byte], numbers: usize) -> String {
    let end = bytes.iter().rposition(Option::is_some).map_or(0, |last| last + 1);
    let (head, tail) = bytes[..end].split_at(numbers.min(end) / 4 * 4);
    let mut pieces = Vec::new();
    describe_numbers(head, &mut pieces);
    describe_text(tail, &mut pieces);
    pieces.join(" ")
}

pub fn written(bytes: &[u8]) -> Vec<Byte> {
    bytes.iter().copied().map(Some).collect()
}

// ---------------------------------------------------------------------------------------------
// Numbers

fn describe_numbers(bytes: &[Byte], pieces: &mut Vec<String>) {
    let number = |four: &[Byte]| four.iter().rev().fold(0, |n, b| n << 8 | u32::from(b.expect("numbers are written")));
    let numbers: Vec<u32> = bytes.chunks_exact(4).map(number).collect();
    let mut at = 0;
    while at < numbers.len() {
        // an entry of a tree's table has 4 numbers, a record 8; three entries may be alike where one is not
        let best =
            [12, 8, 4].map(|width| (width, steady(&numbers[at..], width))).into_iter().max_by_key(|(width, turns)| width * turns);
        let (width, turns) = best.expect("a width");
        if 4 * width * turns < LEAST || turns < 3 {
            pieces.push(format!("#{}", numbers[at]));
            at += 1;
            continue;
        }
        let stepped = (at..at + width).map(|k| match numbers[k + width] - numbers[k] {
            0 => format!("#{}", numbers[k]),
            step => format!("#{}+{step}", numbers[k]),
        });
        pieces.push(format!("{turns}*({})", stepped.collect::<Vec<_>>().join(" ")));
        at += width * turns;
    }
}

/// How many rows of this width follow each other in which every number grows by its own step.
fn steady(numbers: &[u32], width: usize) -> usize {
    let rows: Vec<&[u32]> = numbers.chunks_exact(width).take(2).collect();
    let &[first, second] = rows.as_slice() else {
        return 0;
    };
    if first.iter().zip(second).any(|(a, b)| a > b) {
        return 0;
    }
    let steps: Vec<u32> = first.iter().zip(second).map(|(a, b)| b - a).collect();
    let follows = |k: usize| numbers[k].checked_sub(numbers[k - width]) == Some(steps[k % width]);
    let end = (width..numbers.len()).find(|&k| !follows(k)).unwrap_or(numbers.len());
    end / width
}

// ---------------------------------------------------------------------------------------------
// Texts

/// A piece and how often it stands there; a number of decimal digits in it may grow.
struct Repeated {
    size: usize,
    turns: usize,
    counter: Option<Counter>,
}

struct Counter {
    from: usize,
    width: usize,
    first: u64,
    step: u64,
}

impl Repeated {
    fn covers(&self) -> usize {
        self.size * self.turns
    }
}

fn describe_text(bytes: &[Byte], pieces: &mut Vec<String>) {
    let mut at = 0;
    let mut told = 0;
    while at < bytes.len() {
        let Some(repeated) = repeated(&bytes[at..]) else {
            at += 1;
            continue;
        };
        plain(&bytes[told..at], pieces);
        let block = &bytes[at..at + repeated.size];
        let mut inner = Vec::new();
        match &repeated.counter {
            None => plain(block, &mut inner),
            Some(c) => {
                plain(&block[..c.from], &mut inner);
                inner.push(format!("%{}:{}+{}", c.width, c.first, c.step));
                plain(&block[c.from + c.width..], &mut inner);
            }
        }
        pieces.push(format!("{}*({})", repeated.turns, inner.join(" ")));
        at += repeated.covers();
        told = at;
    }
    plain(&bytes[told..], pieces);
}

/// The repetition that covers most, of the shortest piece; none where it covers little.
fn repeated(bytes: &[Byte]) -> Option<Repeated> {
    let mut best: Option<Repeated> = None;
    for size in 1..=LONGEST.min(bytes.len() / 2) {
        // two turns of a piece as one piece cover no more
        if best.as_ref().is_some_and(|b| size % b.size == 0) {
            continue;
        }
        for found in [same(bytes, size), counted(bytes, size)].into_iter().flatten() {
            if found.turns >= 3 && found.covers() >= LEAST.max(best.as_ref().map_or(0, |b| b.covers() + size)) {
                best = Some(found);
            }
        }
    }
    best
}

fn same(bytes: &[Byte], size: usize) -> Option<Repeated> {
    let end = (size..bytes.len()).find(|&k| bytes[k] != bytes[k - size]).unwrap_or(bytes.len());
    Some(Repeated { size, turns: end / size, counter: None })
}

/// Repeated but for one number of decimal digits, which grows.
fn counted(bytes: &[Byte], size: usize) -> Option<Repeated> {
    let (first, second) = (&bytes[..size], &bytes[size..2 * size]);
    let digit = |k: usize| [first[k], second[k]].iter().all(|b| b.is_some_and(|b| b.is_ascii_digit()));
    let differs = (0..size).find(|&k| first[k] != second[k]).filter(|&k| digit(k))?;
    let from = (0..differs).rev().take_while(|&k| digit(k)).last().unwrap_or(differs);
    let width = (from..size).take_while(|&k| digit(k)).count().min(9);
    let value = |block: &[Byte]| block[from..from + width].iter().flatten().fold(0, |n, b| 10 * n + u64::from(b - b'0'));
    let step = value(second).checked_sub(value(first)).filter(|&step| step > 0)?;
    let around = |block: &[Byte]| block[..from] == first[..from] && block[from + width..] == first[from + width..];
    let number = |block: &[Byte], n: u64| format!("{n:0width$}").bytes().map(Some).eq(block[from..from + width].iter().copied());
    let follows = |(k, block): &(usize, &[Byte])| around(block) && number(block, value(first) + *k as u64 * step);
    let turns = bytes.chunks_exact(size).enumerate().take_while(follows).count();
    Some(Repeated { size, turns, counter: Some(Counter { from, width, first: value(first), step }) })
}

/// What is written, and runs of what remains.
fn plain(bytes: &[Byte], pieces: &mut Vec<String>) {
    for run in bytes.chunk_by(|a, b| a.is_some() == b.is_some()) {
        if run[0].is_none() {
            pieces.push(format!("={}", run.len()));
            continue;
        }
        let mut text = String::from("\"");
        for byte in run.iter().flatten() {
            match byte {
                b'\n' => text.push_str("\\n"),
                b'\t' => text.push_str("\\t"),
                b'\r' => text.push_str("\\r"),
                b'"' | b'\\' => {
                    text.push('\\');
                    text.push(char::from(*byte));
                }
                b' '..=b'~' => text.push(char::from(*byte)),
                _ => {
                    let _ = write!(text, "\\x{byte:02x}");
                }
            }
        }
        text.push('"');
        pieces.push(text);
    }
}
