//! The cases by kind: seed and number of a case decide it.

use std::fmt::Write as _;

use crate::calls::Slack;
use crate::inputs::{
    self, baseline, damage_files, damage_tree, insert, laid_out, limit_function, ordered, path, small_function, token,
    tree_bytes, Plain, Random, NOT_UTF8,
};
use crate::model::{entry_at, MAX_BASELINE, MAX_FILES, MAX_FUNCTIONS, MAX_PATH, MAX_TREE};
use crate::original::update_text;
use crate::sources::Sources;

#[derive(Clone, Copy, Debug, PartialEq, Eq, PartialOrd, Ord)]
pub enum Kind {
    Short,
    Soup,
    Damaged,
    Tree,
    Report,
    Broken,
    Limits,
    Huge,
    Far,
}

pub const KINDS: [Kind; 9] =
    [Kind::Short, Kind::Soup, Kind::Damaged, Kind::Tree, Kind::Report, Kind::Broken, Kind::Limits, Kind::Huge, Kind::Far];

impl Kind {
    pub fn of(case: usize) -> Kind {
        match case {
            // six of them take a second each
            k if k % 250_000 < 6_000 && k % 1_000 == 595 => Kind::Huge,
            k if k % 2_000 == 1_999 => Kind::Limits,
            k if k % 5_000 == 333 => Kind::Far,
            k => match k % 100 {
                0..=29 => Kind::Short,
                30..=54 => Kind::Soup,
                55..=60 => Kind::Damaged,
                61..=86 => Kind::Tree,
                87..=94 => Kind::Report,
                _ => Kind::Broken,
            },
        }
    }

    pub fn text(self) -> &'static str {
        match self {
            Kind::Short => "short texts, in order",
            Kind::Soup => "token soups and functions",
            Kind::Damaged => "damaged real files",
            Kind::Tree => "trees with baselines",
            Kind::Report => "trees for means, sums and ties",
            Kind::Broken => "broken trees",
            Kind::Limits => "trees at the limits",
            Kind::Huge => "inputs at the longest",
            Kind::Far => "long texts of brackets",
        }
    }
}

pub enum Subject {
    /// blanked, and scanned as a tree of one file
    Text(Vec<u8>),
    Tree(Vec<u8>, Vec<u8>),
}

pub fn subject(kind: Kind, seed: u64, case: usize, sources: &Sources) -> (Subject, Random) {
    let mut random = Random::of(seed, kind as u64, case);
    let r = &mut random;
    let subject = match kind {
        // a short text is that of its place in the order, whatever the seed
        Kind::Short => Subject::Text(short((case / 100) * 30 + case % 100).into_bytes()),
        Kind::Soup => {
            let most = if r.chance(90) { 400 } else { 4000 };
            let mut text = inputs::text(r, &sources.original, most).into_bytes();
            if r.chance(2) {
                insert(r, &mut text, NOT_UTF8[case % NOT_UTF8.len()]);
            }
            Subject::Text(text)
        }
        Kind::Damaged => Subject::Text(damaged_file(r, &sources.files)),
        Kind::Tree if r.chance(30) => {
            let (tree, text) = with_damaged_baseline(r, sources);
            Subject::Tree(tree, text)
        }
        Kind::Tree => {
            let (tree, text) = tree_bytes(r, &sources.original);
            Subject::Tree(tree, text)
        }
        Kind::Report => Subject::Tree(laid_out(&report_files(r)), Vec::new()),
        Kind::Broken => Subject::Tree(broken(r, sources), Vec::new()),
        Kind::Limits => {
            let one_more = r.below(2);
            limits(r, case / 2_000, one_more)
        }
        Kind::Huge => huge(r, case % 250_000 / 1_000),
        Kind::Far => Subject::Text(far(r).into_bytes()),
    };
    (subject, random)
}

/// Mostly what is needed or more; sometimes one byte or record less, or far less.
pub fn slack(r: &mut Random, needed: usize) -> Slack {
    let mut one = |unit: usize| -> i64 {
        match r.below(40) {
            0..=19 => 0,
            20..=36 => r.between(1, 70) as i64,
            37 => -1,
            38 => -(unit as i64),
            _ => -(r.below(needed + unit) as i64),
        }
    };
    Slack { work: one(1), records: one(32), output: one(1), counts: one(4) }
}

// ---------------------------------------------------------------------------------------------
// Texts

/// Around each word over an alphabet, the text before and behind it.
#[rustfmt::skip]
const SHORT: &[(&str, &[&str], &str)] = &[
    ("", &["'", "\\", "\"", "/", "*", "r", "b", "#", "\n", "a"], ""),
    ("fn a(", &[",", "self", "&", " ", "(", ")", "<", ">", "mut", "\u{a0}", "x", "\n"], "){}"),
    ("fn a()", &["<", ">", "[", "]", ";", "{", "}", "-", "(", "fn b()"], "{}}"),
    ("fn a(){", &["{", "}", "&", "|", "=", ">", "?", "if", "1", "_", " ", "match", "for"], "}"),
    ("", &["#[cfg(test)]", "{", "}", "fn a(){}", "fn b(){", "x", "\n", "fn"], ""),
    ("", &["fn", " ", "a", "(", ")", "{", "}"], ""),
];

/// The texts of each form in turn, by length and then by their letters.
fn short(k: usize) -> String {
    let (before, letters, behind) = SHORT[k % SHORT.len()];
    let mut word = k / SHORT.len();
    let mut middle: Vec<&str> = Vec::new();
    while word > 0 {
        word -= 1;
        middle.push(letters[word % letters.len()]);
        word /= letters.len();
    }
    middle.reverse();
    format!("{before}{}{behind}", middle.concat())
}

/// Signatures and brackets, few of which end a search.
#[rustfmt::skip]
const FAR: &[&str] = &[
    "fn a(", "fn a()", "fn a()[", "fn a()<", "[fn a()", "<fn a()", "fn a(fn b()", "[fn a()]", "<fn a()>", "fn a() ", "fn a()->", "(", ")", "[", "]", "<",
    ">", "[]", "<>", "x", "\n",
];

const ENDS: &[&str] = &[";", "{", "}", "{}", "[;]", "];[", "<;>", "[{}]", ">{}<", ");", "]{}", "fn b(){}"];

/// A long text in which lists end and bodies begin far behind their signatures: pieces again and again, closing brackets, and soups.
fn far(r: &mut Random) -> String {
    let mut text = String::new();
    let size = r.between(9_000, 40_000);
    let ends = r.below(4);
    while text.len() < size {
        let unit: String = (0..r.between(1, 4)).map(|_| if r.chance(ends) { r.pick(ENDS) } else { r.pick(FAR) }).collect();
        let times = if r.chance(50) { r.between(1, 20) } else { r.between(20, 1_500) };
        text.push_str(&unit.repeat(times.min(16_000 / unit.len())));
        if r.chance(50) {
            let closing = r.pick(&[")", "]", ">", ")]", ">]", ")>"]);
            text.push_str(&closing.repeat(times));
        }
        if r.chance(30) {
            text.push_str(r.pick(ENDS));
        }
    }
    text.push_str(r.pick(&["", ";fn b(){}", "{}", "{ {}", "]]{}", "}", ">>>{}", ")))){}"]));
    text
}

/// A real file or a part of it: bytes taken out, doubled, swapped, cut, tokens put in.
fn damaged_file(r: &mut Random, files: &[String]) -> Vec<u8> {
    let file = files[r.below(files.len())].as_bytes();
    let size = match r.below(20) {
        0 => file.len(),
        1..=4 => r.between(1, 10_000),
        _ => r.between(1, 2_000),
    };
    let from = if size >= file.len() { 0 } else { r.below(file.len() - size + 1) };
    let mut text = file[from..file.len().min(from + size)].to_vec();
    for _ in 0..r.below(9) {
        if text.is_empty() {
            break;
        }
        let at = r.below(text.len());
        let end = text.len().min(at + r.between(1, 12));
        match r.below(8) {
            0 | 1 => {
                text.drain(at..end);
            }
            2 => {
                let part = text[at..end].to_vec();
                text.splice(at..at, part);
            }
            3 => {
                let other = r.below(text.len());
                text.swap(at, other);
            }
            4 if r.chance(30) => text.truncate(at),
            5 => {
                let bytes = token(r).into_bytes();
                text.splice(at..end, bytes);
            }
            _ => {
                let bytes = token(r).into_bytes();
                text.splice(at..at, bytes);
            }
        }
    }
    if r.chance(70) {
        text = String::from_utf8_lossy(&text).into_owned().into_bytes();
    }
    text
}

// ---------------------------------------------------------------------------------------------
// Baselines

/// A tree, and the baseline of another version of it with damaged lines.
fn with_damaged_baseline(r: &mut Random, sources: &Sources) -> (Vec<u8>, Vec<u8>) {
    let mut files = inputs::files(r, &sources.original);
    if files.is_empty() || r.chance(30) {
        let count = r.between(1, 5);
        files = ordered((0..count).map(|_| (path(r), over_functions(r))).collect());
    }
    let mut other = files.clone();
    for file in &mut other {
        if r.chance(40) {
            file.1.extend(over_functions(r));
        }
    }
    let funs = crate::model::Tree::read(laid_out(&other)).funs;
    let (text, _) = update_text(&funs);
    let mut lines: Vec<Vec<u8>> = text.split(|&b| b == b'\n').map(<[u8]>::to_vec).collect();
    lines.pop();
    if r.chance(40) {
        lines.drain(..8);
    }
    for _ in 0..r.below(7) {
        damage_lines(r, &mut lines);
    }
    let end: &[u8] = if r.chance(25) { b"\r\n" } else { b"\n" };
    let mut text = lines.join(end);
    match r.below(6) {
        0 => {}
        1 => text.push(b'\r'),
        _ => text.extend(end),
    }
    if r.chance(5) {
        let bytes = NOT_UTF8[r.below(NOT_UTF8.len())];
        insert(r, &mut text, bytes);
    }
    if r.chance(2) {
        text.clear();
    }
    (laid_out(&files), text)
}

fn over_functions(r: &mut Random) -> Vec<u8> {
    (0..r.between(1, 3)).map(|_| limit_function(r)).collect::<String>().into_bytes()
}

fn damage_lines(r: &mut Random, lines: &mut Vec<Vec<u8>>) {
    #[rustfmt::skip]
    const NUMBERS: &[&str] = &[
        "0", "1", "15", "16", "17", "99", "100", "101", "102", "+7", "+16", "+", "-1", "", " 16", "16 ", "0016", "00000000000000000000016",
        "4294967295", "4294967296", "18446744073709551615", "18446744073709551616", "99999999999999999999999", "16\r", "1_6", "é", "１６",
    ];
    if lines.is_empty() {
        lines.push(b"a\ta\t1\t1".to_vec());
    }
    let k = r.below(lines.len());
    let other = r.below(lines.len());
    match r.below(14) {
        0 => lines.swap(k, other),
        1 => {
            let line = lines[k].clone();
            lines.insert(other, line);
        }
        2 => {
            lines.remove(k);
        }
        3..=6 => {
            // a number of its own, in the third or fourth field
            let mut fields: Vec<Vec<u8>> = lines[k].split(|&b| b == b'\t').map(<[u8]>::to_vec).collect();
            let at = r.between(2, 3);
            if at < fields.len() {
                fields[at] = r.pick(NUMBERS).as_bytes().to_vec();
            }
            lines[k] = fields.join(&b'\t');
        }
        7 => lines[k].extend(r.pick(&["\t", "\t5", "\tx\ty", " ", "\r", "\r\r"]).bytes()),
        8 => {
            let at = lines[k].iter().rposition(|&b| b == b'\t').unwrap_or(0);
            lines[k].truncate(at);
        }
        9 => {
            let at = if r.chance(50) { 0 } else { lines[k].len() };
            lines[k].splice(at..at, r.pick(&["#", " ", "\t", "\u{a0}", "\u{feff}"]).bytes());
        }
        10 => lines.insert(k, r.pick(&["", " ", "\t", "#", "\u{2003}", "\r", "# a\tb\t1\t1"]).as_bytes().to_vec()),
        11 | 12 => {
            // a key that begins as another does, or ends short of it
            let mut line = lines[k].clone();
            let tab = line.iter().position(|&b| b == b'\t').unwrap_or(0);
            match r.below(4) {
                0 => line.insert(tab, *r.pick(&["a", "/", "\u{1}", " ", "\u{8}"]).as_bytes().first().expect("a byte")),
                1 if tab > 0 => {
                    line.remove(tab - 1);
                }
                2 => {
                    let at = line.len().min(tab + 1);
                    line.splice(at..at, r.pick(&["a", "_", "0", "\u{1}", " "]).bytes());
                }
                _ => {
                    if let Some(next) = line.iter().skip(tab + 1).position(|&b| b == b'\t') {
                        line.insert(tab + 1 + next, b'a');
                    }
                }
            }
            lines.insert(other, line);
        }
        _ => {
            let at = r.below(lines[k].len() + 1);
            if at < lines[k].len() {
                lines[k].remove(at);
            }
        }
    }
}

// ---------------------------------------------------------------------------------------------
// Trees

/// Functions of wanted cyclomatic numbers: means halfway between tenths, files of equal sums, ten, eleven and more files.
fn report_files(r: &mut Random) -> Vec<Plain> {
    let count = r.pick(&["1", "2", "9", "10", "11", "12"]).parse::<usize>().expect("a number");
    let functions = match r.below(6) {
        0 => count,
        1 | 2 => 20 * r.between(1, 5),
        3 => 4 * r.between(1, 10),
        _ => r.between(1, 60),
    };
    // the mean is odd twentieths where that can be
    let least = functions * r.between(1, 3);
    let total = if r.chance(75) { least + functions * (2 * r.below(10) + 1) / 20 } else { least + r.below(functions) };
    let mut numbers = vec![total / functions; functions];
    for n in numbers.iter_mut().take(total % functions) {
        *n += 1;
    }
    if r.chance(50) {
        // the same total, with some functions over the limit
        for _ in 0..r.between(1, 6) {
            let k = r.below(functions);
            numbers[k] += 15;
        }
    }
    let mut texts = vec![String::new(); count];
    let even = r.chance(60);
    for (k, n) in numbers.into_iter().enumerate() {
        let file = if even { k % count } else { r.below(count) };
        let name = r.pick(&["a", "b", "g"]);
        let _ = writeln!(texts[file], "fn {name}(){{{}}}", "?".repeat(n - 1));
    }
    let mut files: Vec<Plain> = Vec::new();
    for (k, text) in texts.into_iter().enumerate() {
        let path =
            if r.chance(50) { path(r) } else { format!("src/{}{k}.rs", r.pick(&["", "a/", "a.", "A", "é"])).into_bytes() };
        files.push((path, text.into_bytes()));
    }
    ordered(files)
}

/// A layout that does not hold, or bad paths and texts; often more than one of these at once.
fn broken(r: &mut Random, sources: &Sources) -> Vec<u8> {
    let mut files = inputs::files(r, &sources.original);
    if files.is_empty() && r.chance(80) {
        files.push((path(r), small_function(r).into_bytes()));
    }
    for _ in 0..r.below(4) {
        damage_files(r, &mut files);
    }
    let mut tree = laid_out(&files);
    for _ in 0..r.below(3) {
        if r.chance(40) || files.is_empty() {
            if tree.len() >= entry_at(0) {
                damage_tree(r, &mut tree);
            }
            continue;
        }
        // one number of one entry
        let at = entry_at(r.below(files.len())) + 4 * r.below(4);
        if at + 4 > tree.len() {
            continue;
        }
        let number = u32::from_le_bytes(tree[at..at + 4].try_into().expect("four bytes"));
        let changed = match r.below(8) {
            0 | 1 => number.wrapping_add(1),
            2 | 3 => number.wrapping_sub(1),
            4 => 0,
            5 => u32::MAX - r.below(3) as u32,
            6 => number.wrapping_add(1 << (8 * r.below(4))),
            _ => tree.len() as u32,
        };
        tree[at..at + 4].copy_from_slice(&changed.to_le_bytes());
    }
    tree
}

fn numbered(count: usize, text: impl Fn(usize) -> String) -> Vec<Plain> {
    ordered((0..count).map(|k| (format!("f{k:05}").into_bytes(), text(k).into_bytes())).collect())
}

/// A tree at a limit; `one_more`, which is 0 or 1, takes some of them past it.
pub fn limits(r: &mut Random, turn: usize, one_more: usize) -> Subject {
    let files = match turn % 8 {
        0 => numbered(MAX_FILES + one_more, |_| "fn a(){}".to_string()),
        1 => {
            // as many functions as there may be, or one more, in some files
            let count = r.between(16, 64);
            let functions = MAX_FUNCTIONS + one_more;
            let over = r.chance(30);
            numbered(count, |k| {
                let here = functions / count + usize::from(k < functions % count);
                let text = if over { "fn a(){{{{{{}}}}}}\n" } else { "fn a(){}\n" };
                text.repeat(here)
            })
        }
        2 => {
            let mut files = numbered(3, |_| "fn a(){{{{{{}}}}}}".to_string());
            files[1].0 = vec![b'g'; MAX_PATH + one_more];
            ordered(files)
        }
        3 => {
            // numbers wider than their columns
            let sizes = [9_998, 9_999, 10_000, 99_998, 99_999, 100_000, 120_000];
            let n = sizes[r.below(sizes.len())];
            let m = sizes[r.below(3)];
            numbered(2, |k| {
                if k == 0 {
                    format!("fn a(){{{}}}fn b()\n{{{}}}", "?".repeat(n), "\n".repeat(n))
                } else {
                    format!("fn c(){}{}fn d({}){{}}", "{".repeat(m), "}".repeat(m), "p,".repeat(n))
                }
            })
        }
        4 => {
            // a sum of seven digits
            let n = 333_333 + one_more;
            numbered(1, |_| format!("fn a(){{{}}}", "?".repeat(n)).repeat(3))
        }
        5 => {
            // many over the limit, of few names
            let count = r.between(2, 12);
            let functions = r.between(50, 400);
            let text: Vec<String> = (0..count).map(|_| (0..functions).map(|_| limit_function(r)).collect()).collect();
            numbered(count, |k| text[k].clone())
        }
        6 => numbered(MAX_FILES - one_more, |k| if k % 3 == 0 { "fn a(){{{{{{}}}}}}".to_string() } else { String::new() }),
        _ => {
            let text: Vec<String> = (0..12).map(|_| (0..100).map(|_| small_function(r)).collect()).collect();
            numbered(12, |k| text[k].clone())
        }
    };
    let short = files.len() < 100 && files.iter().all(|f| f.1.len() < 60_000);
    let text = if short { baseline(r, &files, "") } else { Vec::new() };
    Subject::Tree(laid_out(&files), text)
}

/// The longest text, tree and baseline, and one byte more.
pub fn huge(r: &mut Random, turn: usize) -> Subject {
    let one_more = usize::from(turn % 2 == 1);
    let filled = |size: usize, piece: &str| -> Vec<u8> { piece.bytes().cycle().take(size).collect() };
    match turn / 2 % 3 {
        0 => {
            let mut text = filled(MAX_TREE + one_more, "/*a*/ \"b\" 'c' r#\"d\"# e //f\n");
            text[..16].copy_from_slice(b"fn a(){?}fn b()\n");
            Subject::Text(text)
        }
        1 => {
            let head = entry_at(1) + 1;
            let mut text = filled(MAX_TREE + one_more - head, "x \"?\" \n");
            text[..16].copy_from_slice(b"fn a(){{{{{{}}}}");
            *text.last_mut().expect("a byte") = b'}';
            Subject::Tree(laid_out(&[(b"a".to_vec(), text)]), Vec::new())
        }
        _ => {
            let mut text = filled(MAX_BASELINE + one_more, "# a comment\n");
            text[..10].copy_from_slice(b"a\ta\t16\t1\n#");
            text.extend(if one_more == 0 { b"".as_slice() } else { b"\n" });
            let files = [(b"a".to_vec(), limit_function(r).into_bytes())];
            Subject::Tree(laid_out(&files), text)
        }
    }
}
