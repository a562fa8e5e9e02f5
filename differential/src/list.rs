//! The list of the original's answers, against which tests/c/replay.c holds the library: tests/oracle/README.md says how it is written.

use std::collections::BTreeMap;
use std::fmt::Write as _;
use std::path::Path;

use crate::calls::{answer, blank_answer, with_slack, Name, Said, Slack, NAMES};
use crate::cases::{huge, limits, slack, subject, Kind, Subject};
use crate::describe::{described, written, Byte};
use crate::inputs::{laid_out, Plain, Random};
use crate::model::{entry_at, Lent, Tree, MAX_FILES, RECORD_WIDTH};
use crate::sources::Sources;

/// The calls of each name by their number.
pub type Numbers = BTreeMap<(Name, usize), usize>;

#[derive(Default)]
struct List {
    text: String,
    /// what the last line of each name says
    set: BTreeMap<&'static str, String>,
    numbers: Numbers,
}

/// The bytes that both hold were written, since the buffers before were everywhere different.
fn changes(a: &[u8], b: &[u8]) -> Vec<Byte> {
    a.iter().zip(b).map(|(a, b)| (a == b).then_some(*a)).collect()
}

/// The bytes of a tree's table, for as many files as a tree may have and one more.
fn table(tree: &[u8]) -> usize {
    let count = tree.first_chunk().map_or(0, |four| u32::from_le_bytes(*four) as usize);
    entry_at(count.min(MAX_FILES + 1))
}

impl List {
    /// A line of the list, unless it holds already.
    fn set(&mut self, name: &'static str, says: String) {
        if self.set.get(name) != Some(&says) {
            let _ = writeln!(self.text, "{name} {says}");
            self.set.insert(name, says);
        }
    }

    fn answered(&mut self, name: Name, number: usize) {
        let _ = writeln!(self.text, "{} {number}", name.text());
        *self.numbers.entry((name, number)).or_default() += 1;
    }

    fn blank(&mut self, text: &[u8], slack: i64) {
        let size = with_slack(text.len(), slack);
        let (number, after) = blank_answer(text, &vec![0; size]);
        let (_, other) = blank_answer(text, &vec![255; size]);
        self.set("input", described(&written(text), 0));
        self.set("lent", format!("0 0 {size} 0"));
        self.set("output", described(&changes(&after, &other), 0));
        self.answered(Name::Blank, number);
    }

    fn call(&mut self, name: Name, tree: &Tree, baseline: &[u8], slack: Slack) {
        if name == Name::Blank {
            return self.blank(&tree.bytes, slack.output);
        }
        let said = Said::of(name, tree, baseline);
        let output = if name == Name::Scan { 0 } else { with_slack(said.listing.len(), slack.output) };
        let sizes = [
            with_slack(tree.bytes.len(), slack.work),
            with_slack(RECORD_WIDTH * tree.funs.len(), slack.records),
            output,
            with_slack(name.counts(), slack.counts),
        ];
        let after = |fill: u8| {
            let [work, records, output, counts] = sizes.map(|size| vec![fill; size]);
            answer(name, tree, baseline, &said, &Lent { work, records, output, counts })
        };
        let ((number, all), (_, other)) = (after(0), after(255));
        self.set("input", described(&written(&tree.bytes), table(&tree.bytes)));
        if name == Name::Check {
            self.set("baseline", described(&written(baseline), 0));
        }
        self.set("lent", sizes.map(|size| size.to_string()).join(" "));
        self.set("work", described(&changes(&all.work, &other.work), 0));
        self.set("records", described(&changes(&all.records, &other.records), usize::MAX));
        if name != Name::Scan {
            self.set("output", described(&changes(&all.output, &other.output), 0));
        }
        self.set("counts", described(&changes(&all.counts, &other.counts), usize::MAX));
        self.answered(name, number);
    }

    fn calls(&mut self, tree: Vec<u8>, baseline: &[u8], slack: Slack) {
        let tree = Tree::read(tree);
        for name in &NAMES[1..] {
            self.call(*name, &tree, baseline, slack);
        }
    }
}

/// The list's calls by number, after it is written to the file.
pub fn write(file: &Path, seed: u64, count: usize, sources: &Sources) -> std::io::Result<Numbers> {
    // of the real files only the original itself, so that the list does not change with the others
    let sources = Sources { original: sources.original.clone(), files: vec![sources.original.clone()] };
    let mut list = List::default();
    rooms(&mut list);
    faults(&mut list);
    at_limits(&mut list);
    for case in 0..count {
        generated(&mut list, seed, case, &sources);
    }
    let all: usize = list.numbers.values().sum();
    let _ = writeln!(list.text, "end {all}");
    std::fs::write(file, &list.text)?;
    Ok(list.numbers)
}

fn plain(files: &[(&str, &str)]) -> Vec<Plain> {
    files.iter().map(|(path, text)| (path.as_bytes().to_vec(), text.as_bytes().to_vec())).collect()
}

/// Longer than any buffer of these cases: so much less leaves none of it.
const ALL: i64 = 1 << 40;

/// One tree with every choice of buffers that are too short, which shows which refusal comes first.
fn rooms(list: &mut List) {
    let grown =
        "fn grows(x: u8) -> char {\n    if x > 1 { '{' } else { '}' } // }\n}\n#[cfg(test)]\nmod t {\n    fn hidden() {}\n}\n";
    let wide = "fn wide(&self, a: u8, b: u8, c: u8, d: u8, e: u8, f: u8, g: &'a str, h: u8) {}\nfn deep() {{{{{{}}}}}}\n";
    let tree = laid_out(&plain(&[("src/a/b.rs", ""), ("src/a.rs", grown), ("src/b.rs", wide)]));
    let baseline = b"# accepted\nsrc/a.rs\tgrows\t1\t1\nsrc/b.rs\twide\t1\t1\nsrc/c.rs\tgone\t20\t30\n";
    for short in 0..16 {
        let less = |bit: i64, by: i64| -by * (short >> bit & 1);
        list.calls(
            tree.clone(),
            baseline,
            Slack { work: less(0, 1), counts: less(1, 1), records: less(2, 32), output: less(3, 1) },
        );
    }
    for by in [7, 64, -ALL] {
        list.calls(tree.clone(), baseline, Slack { work: by, counts: by, records: by, output: by });
    }
    list.calls(tree.clone(), baseline, Slack { records: -1, ..Slack::default() });
    list.calls(tree.clone(), b"src/b.rs\twide\t1\t1\n#\xff\n", Slack::default());
    list.calls(tree, b"", Slack::default());
    for text in [grown, ""] {
        for by in [0, 1, 30, -1, -ALL] {
            list.blank(text.as_bytes(), by);
        }
    }
}

/// Trees that are refused for one reason, and the like that are not.
fn faults(list: &mut List) {
    let room = Slack { work: 3, records: 64, output: 40, counts: 4 };
    let text: &[u8] = b"fn a() {{{{{{}}}}}}\n";
    let paths: [&[&[u8]]; 14] = [
        &[b"a\tb"],
        &[b"a\nb"],
        &[b"#a"],
        &[b"a#"],
        &[b"\xff"],
        &[b"\xed\xa0\x80"],
        &["é".as_bytes()],
        &[b""],
        &[b"a", b"a"],
        &[b"b", b"a"],
        &[b"a/b", b"a"],
        &[b"a.b", b"a/b"],
        &[b"a/b", b"a.b"],
        &[b"a", b"", b"b"],
    ];
    for paths in paths {
        let files: Vec<Plain> = paths.iter().map(|path| (path.to_vec(), text.to_vec())).collect();
        list.calls(laid_out(&files), b"", room);
    }
    for bytes in crate::inputs::NOT_UTF8 {
        list.calls(laid_out(&[(b"a".to_vec(), [text, bytes].concat())]), b"", room);
        list.blank(&[text, bytes].concat(), 0);
    }
    let good = laid_out(&[(b"a".to_vec(), text.to_vec()), (b"b".to_vec(), text.to_vec())]);
    for size in [0, 1, 3, 4, 35, 36, good.len() - 1] {
        list.calls(good[..size].to_vec(), b"", room);
    }
    list.calls([good.as_slice(), b"a"].concat(), b"", room);
    list.calls(vec![0; 4], b"a\tb\t1\t1\n", room);
    // each number of the table one more, and the last number there is
    for at in (0..36).step_by(4) {
        for number in [good[at].wrapping_add(1).into(), u32::MAX] {
            let mut tree = good.clone();
            tree[at..at + 4].copy_from_slice(&u32::to_le_bytes(number));
            list.call(Name::Scan, &Tree::read(tree), b"", room);
        }
    }
}

/// The limits and one more: files, functions, paths, columns, sums; the longest text, tree and baseline.
fn at_limits(list: &mut List) {
    for turn in [0, 1, 2, 3, 4, 6] {
        for one_more in 0..2 {
            let r = &mut Random::of(2, Kind::Limits as u64, turn);
            let Subject::Tree(tree, baseline) = limits(r, turn, one_more) else {
                unreachable!("a tree");
            };
            list.calls(tree, &baseline, Slack::default());
        }
    }
    for turn in 0..6 {
        match huge(&mut Random::of(1, Kind::Huge as u64, turn), turn) {
            Subject::Text(text) => list.blank(&text, 0),
            Subject::Tree(tree, baseline) if turn < 4 => list.calls(tree, &baseline, Slack::default()),
            Subject::Tree(tree, baseline) => list.call(Name::Check, &Tree::read(tree), &baseline, Slack::default()),
        }
    }
}

/// The case that the comparison has under the same seed and number, with the calls that say most of it.
fn generated(list: &mut List, seed: u64, case: usize, sources: &Sources) {
    let kind = Kind::of(case);
    if matches!(kind, Kind::Limits | Kind::Huge) {
        return;
    }
    let (subject, mut r) = subject(kind, seed, case, sources);
    match subject {
        Subject::Text(text) => {
            let tree = Tree::read(laid_out(&[(b"a".to_vec(), text.clone())]));
            list.blank(&text, slack(&mut r, text.len()).output);
            list.call(Name::Scan, &tree, b"", slack(&mut r, tree.bytes.len()));
        }
        Subject::Tree(tree, baseline) => {
            let tree = Tree::read(tree);
            for name in &NAMES[1..] {
                list.call(*name, &tree, &baseline, slack(&mut r, tree.bytes.len()));
            }
        }
    }
}
