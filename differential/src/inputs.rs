//! Random texts, trees and baselines. Case and seed decide an input, whatever the number of cases.

use std::collections::BTreeMap;
use std::fmt::Write as _;

use crate::model::{entry_at, rank, Tree, MAX_PATH};
use crate::original::{update_text, Fun};

pub struct Random(u64);

impl Random {
    /// Each case has its own numbers, so that it is the same whatever the cases before it are.
    pub fn of(seed: u64, kind: u64, case: usize) -> Random {
        let mut r = Random(seed);
        for n in [kind, case as u64] {
            r.0 = r.next() ^ n;
        }
        r
    }

    pub fn next(&mut self) -> u64 {
        self.0 = self.0.wrapping_add(0x9e37_79b9_7f4a_7c15);
        let mut z = self.0;
        z = (z ^ (z >> 30)).wrapping_mul(0xbf58_476d_1ce4_e5b9);
        z = (z ^ (z >> 27)).wrapping_mul(0x94d0_49bb_1331_11eb);
        z ^ (z >> 31)
    }

    pub fn below(&mut self, n: usize) -> usize {
        (self.next() % n as u64) as usize
    }

    pub fn between(&mut self, low: usize, high: usize) -> usize {
        low + self.below(high - low + 1)
    }

    pub fn chance(&mut self, percent: usize) -> bool {
        self.below(100) < percent
    }

    pub fn pick<'a>(&mut self, from: &[&'a str]) -> &'a str {
        from[self.below(from.len())]
    }
}

/// A place of a text between two characters.
pub fn boundary(r: &mut Random, text: &str) -> usize {
    let mut at = r.below(text.len() + 1);
    while !text.is_char_boundary(at) {
        at -= 1;
    }
    at
}

pub fn cut(text: &mut String, most: usize) {
    let mut at = most.min(text.len());
    while !text.is_char_boundary(at) {
        at -= 1;
    }
    text.truncate(at);
}

// ---------------------------------------------------------------------------------------------
// Texts

#[rustfmt::skip]
pub const WORDS: &[&str] = &[
    "fn", "fn ", " fn ", "fn a", "fn(", "a", "b1", "x", "self", "mut self", "mutself", "selfish", "&self", "&mut self",
    "&'a self", "& mut  self", "&\tself", "if", " if ", "iffy", "_if", "1if", "if1", "0for", "9_loop", "loop", " loop ",
    "while", " while ", "for", " for ", "match", " match ", "else", "fn2", "2fn ", "_fn", "r", "br", "b", "rb", "u8",
    "_", "mod t", "where", "é", "ß", "fné", "éfn a(){}", "éif", "\u{10ffff}", "\u{ffff}",
];
#[rustfmt::skip]
pub const MARKS: &[&str] = &[
    "(", ")", "[", "]", "<", ">", "{", "}", "(", ")", "{", "}", "{", "}", "()", "{}", ",", ",", ";", "&", "&&", "&&&",
    "|", "||", "|||", "=>", "==>", "=", "->", "=>>", "?", "??", ":", ".", "#", "!", "@", "/", "*", "\\", "'", "\"",
];
#[rustfmt::skip]
pub const LITERALS: &[&str] = &[
    "\"a\"", "\"\"", "\"{\"", "\"\\\"\"", "\"\\\\\"", "\"\\", "\"fn a(){}\"", "\"\n\"", "\"é\"", "\"\\é\"", "r\"a\\\"",
    "r#\"a\"b\"#", "r#\"a", "br##\"a\"#\"##", "br\"}\"", "xr\"a\"", "1r\"a\\\"", "_br#\"a\"#", "r#a", "r##\"\"#\"##",
    "b\"a\"", "b'a'", "'a'", "'a", "'\\''", "'\\n'", "'\\\\'", "'\\u{1F600}'", "'\\", "''", "'''", "'é'", "'\\é'",
    "'\n'", "'{'", "'\"'", "'}'", "r\"", "r#\"", "br#", "rr\"a\"", "brr\"a\"", "bbr\"a\"", "é r\"\\\"", "ér\"\\\"",
];
#[rustfmt::skip]
pub const COMMENTS: &[&str] = &[
    "//", "// a\n", "//\"\n", "//'\n", "///*\n", "/*", "*/", "/* a */", "/*/", "/*/**/*/", "/**/", "/*\n*/", "*/*",
    "/*\"*/", "/*'*/", "/*//*/", "/*{*/", "/*/*", "/***/", "/**//**/", "/*é*/", "//é\n", "/ /", "*//",
];
#[rustfmt::skip]
pub const SPACES: &[&str] = &[
    " ", " ", " ", "\n", "\n", "\t", "\r", "\r\n", "\u{b}", "\u{c}", "\u{85}", "\u{a0}", "\u{1680}", "\u{2000}",
    "\u{2001}", "\u{2002}", "\u{2003}", "\u{2004}", "\u{2005}", "\u{2006}", "\u{2007}", "\u{2008}", "\u{2009}",
    "\u{200a}", "\u{2028}", "\u{2029}", "\u{202f}", "\u{205f}", "\u{3000}",
];
// not White_Space, though their bytes are near it
#[rustfmt::skip]
pub const NEAR_SPACES: &[&str] = &[
    "\u{0}", "\u{8}", "\u{e}", "\u{1c}", "\u{1f}", "\u{7f}", "\u{84}", "\u{86}", "\u{9f}", "\u{a1}", "\u{1681}", "\u{180e}", "\u{1fff}",
    "\u{200b}", "\u{2027}", "\u{202a}", "\u{202e}", "\u{2030}", "\u{205e}", "\u{2060}", "\u{2fff}", "\u{3001}",
    "\u{feff}", "\u{d7ff}", "\u{e000}", "\u{800}", "\u{7ff}", "\u{10000}",
];
#[rustfmt::skip]
pub const SPANS: &[&str] = &[
    "#[cfg(test)]", "#[cfg(test)] mod t {", "#[cfg(test)]fn t(){}", "#[cfg(test)]}", "#[cfg(test)", "##[cfg(test)]{",
    "#[cfg(test)]#[cfg(test)]{}", "#[cfg (test)]{", "#[cfg(test)] use a;", "#[cfg(test)]{#[cfg(test)]}", "#[cfg(test)]{{}#[cfg(test)]fn t(){}}",
];
pub const NAMES: &[&str] = &["a", "b", "g", "x1", "_", "_a", "1", "2b", "if", "fn", "self", "main", "long_name_0"];
#[rustfmt::skip]
pub const FIRST_PARAMS: &[&str] = &[
    "self", "&self", "&mut self", "mut self", "& self", "&'a self", "&'a mut self", "self: Box<A>", "selfish: u8",
    "mutself", "m ut self", "&&self", "s elf", "&\tself", "mut\u{a0}self", "Self", "(self", "self>", "_self", "self1",
];
#[rustfmt::skip]
pub const PARAMS: &[&str] = &[
    "a: u8", "b", "mut c: &str", "d: Vec<A, B>", "(e, f): (u8, u8)", "[g, h]: [u8; 2]", "i: impl Fn(u8, u8) -> u8", "",
    " ", "j>", "<k", ")", "(", "[", "]", "l: &'a str", "m: A<'a', '>", "é: u8", "self", "n: \"a,b\"", "o /* , */", "<(>,)", "[>]",
];
#[rustfmt::skip]
pub const BETWEEN: &[&str] = &[
    "", "", "", "", "", "", " ", " ", " ", " ", "\n", "\n", " -> u8 ", " -> u8 ", " -> u8 ", " -> [u8; 3] ", " -> A<B> ", " where T: A<[u8; 2]>, ", " -> A<{1}> ", " [;] ",
    "<;>", ";", "]", "]]", "][", "[", "<", ">", ">>", "<<", "=> ", " -> (a) ", " -> Option<Vec<u8>>\n", "é", "[{}]", " where Self: B {",
];
#[rustfmt::skip]
pub const PIECES: &[&str] = &[
    "if a ", "if", "while b ", "for c in d ", "loop ", "match e ", "0 => 1, ", "_ => {}", "a && b ", "a || b ", "c? ", "?", "??", "iffy ",
    "1if ", "_for ", "else ", "&&&", "&&&&", "|||", "||||", "=>", "==>", "=>=>", "= >", "& &", "| |", "{}", "{{}}", "{a}", "()", ";", "\n", "\n\n", "\r\n", "\t",
    "fn b() {}", "fn c(", "\"if\"", "/* if */", "// if\n", "'?'", "'\\?'", "r\"?\"", "if!", "if1", "éif ", "loopé", "for_", "match{", "while?",
];

/// Around the window of an escape: an apostrophe 2 to 14 bytes on, or none.
pub fn escape(r: &mut Random) -> String {
    let mut text = String::from("'\\");
    // 9 bytes between is the last that fits
    let size = if r.chance(60) { r.between(8, 11) } else { r.between(0, 12) };
    while text.len() < 2 + size {
        text.push_str(r.pick(&["a", "{", "}", "0", "\\", "\"", " ", "\n", "u", "é"]));
    }
    if r.chance(90) {
        text.push('\'');
    }
    text
}

/// Marks of block comments that may nest, overlap or stay open.
pub fn comment(r: &mut Random) -> String {
    let mut text = String::from("/*");
    for _ in 0..r.between(1, 7) {
        text.push_str(r.pick(&["/*", "/*", "/*/", "*/", "*/", "*/*", "/", "*", "a", "\n", "\""]));
    }
    if r.chance(60) {
        text.push_str("*/*/");
    }
    text
}

pub fn token(r: &mut Random) -> String {
    let table = match r.below(100) {
        0..=29 => WORDS,
        30..=57 => MARKS,
        58..=67 => LITERALS,
        68..=71 => COMMENTS,
        72..=73 => return comment(r),
        74..=86 => SPACES,
        87..=88 => NEAR_SPACES,
        89..=92 => SPANS,
        93..=95 => return escape(r),
        _ => PIECES,
    };
    r.pick(table).to_string()
}

pub fn soup(r: &mut Random, tokens: usize) -> String {
    (0..tokens).map(|_| token(r)).collect()
}

pub fn gap(r: &mut Random) -> &'static str {
    match r.below(10) {
        0..=5 => "",
        6..=8 => r.pick(SPACES),
        _ => r.pick(NEAR_SPACES),
    }
}

pub fn params(r: &mut Random) -> String {
    let mut parts: Vec<&str> = (0..r.below(5)).map(|_| r.pick(PARAMS)).collect();
    if r.chance(10) {
        parts = (0..r.between(6, 10)).map(|_| "a").collect();
    }
    if r.chance(40) {
        parts.insert(0, r.pick(FIRST_PARAMS));
    }
    let mut text = format!("{}{}", gap(r), gap(r));
    for (k, part) in parts.iter().enumerate() {
        let comma = if k == 0 { "" } else { "," };
        let _ = write!(text, "{comma}{}{part}{}", gap(r), gap(r));
    }
    if r.chance(20) {
        text.push(',');
    }
    text.push_str(gap(r));
    text
}

pub fn body(r: &mut Random, depth: usize) -> String {
    let mut text = String::from("{");
    for _ in 0..r.below(6) {
        match r.below(10) {
            0..=5 => text.push_str(r.pick(PIECES)),
            6 | 7 if depth > 0 => text.push_str(&body(r, depth - 1)),
            8 if r.chance(30) => text.push_str(&escape(r)),
            8 => text.push_str(&token(r)),
            _ => text.push_str(r.pick(SPACES)),
        }
    }
    text.push('}');
    text
}

pub fn function(r: &mut Random) -> String {
    let space = if r.chance(85) { r.pick(&[" ", "\n", "\t", "\u{c}", "\r", "  "]) } else { gap(r) };
    let name = r.pick(NAMES);
    let generic = r.pick(&["", "", "", "", "<T>", "<'a>", " ", "\n", "<F: Fn()>", "é"]);
    let between = r.pick(BETWEEN);
    format!("fn{space}{name}{generic}({}){between}{}", params(r), body(r, 3))
}

/// One character taken out, a token put in, or the end cut off.
pub fn damaged(r: &mut Random, text: &mut String) {
    let at = boundary(r, text);
    match r.below(4) {
        0 | 1 if at < text.len() => {
            text.remove(at);
        }
        2 => text.insert_str(at, &token(r)),
        _ if r.chance(30) => text.truncate(at),
        _ => {}
    }
}

pub fn text(r: &mut Random, source: &str, most: usize) -> String {
    let mut text = String::new();
    match r.below(10) {
        0 | 1 => {
            text = {
                let n = r.between(2, 80);
                soup(r, n)
            }
        }
        2 | 3 => {
            // a piece of the source, from a function's beginning or from anywhere
            let mut from = boundary(r, source);
            if r.chance(70) {
                from = source[from..].find("fn ").map_or(from, |n| from + n);
            }
            text.push_str(&source[from..]);
            let size = r.between(40, 400);
            cut(&mut text, size);
            for _ in 0..r.below(6) {
                damaged(r, &mut text);
            }
        }
        _ => {
            for _ in 0..r.between(1, 4) {
                let before = if r.chance(40) { r.below(4) } else { 0 };
                text.push_str(&soup(r, before));
                if r.chance(8) {
                    text.push_str(r.pick(SPANS));
                }
                text.push_str(r.pick(&["", "", " ", "\n", ";"]));
                text.push_str(&function(r));
            }
            if r.chance(30) {
                damaged(r, &mut text);
            }
            let behind = if r.chance(30) { r.below(6) } else { 0 };
            text.push_str(&soup(r, behind));
        }
    }
    cut(&mut text, most);
    text
}

// ---------------------------------------------------------------------------------------------
// Trees and baselines

pub type Plain = (Vec<u8>, Vec<u8>);

/// A function at one of the limits or just over it.
pub fn limit_function(r: &mut Random) -> String {
    let name = r.pick(&["a", "b", "g", "h"]);
    let n = r.below(3);
    match r.below(9) {
        0..=2 => format!("fn {name}(){}{}\n", "{".repeat(5 + n), "}".repeat(5 + n)),
        3 | 4 => format!("fn {name}({}){{}}\n", "p,".repeat(7 + n)),
        5..=7 => format!("fn {name}(){{{}}}\n", "?".repeat(14 + n)),
        _ => format!("fn {name}()\n{{{}}}", "\n".repeat(99 + n)),
    }
}

pub fn small_function(r: &mut Random) -> String {
    let name = r.pick(&["a", "b", "c", "g"]);
    format!("fn {name}() {{{}}}\n", r.pick(&["", "?", "??", "a&&b", "\n", "if a {}", "\n\n\n"]))
}

pub fn tree_text(r: &mut Random, source: &str, most: usize) -> Vec<u8> {
    let mut all = String::new();
    let count = if r.chance(15) { 0 } else { r.between(1, 3) };
    for _ in 0..count {
        match r.below(10) {
            0..=2 => all.push_str(&small_function(r)),
            3..=6 => all.push_str(&limit_function(r)),
            7 => all.push_str(&text(r, source, 150)),
            8 => all.push_str(&function(r)),
            _ => all.push_str(&token(r)),
        }
    }
    cut(&mut all, most);
    all.into_bytes()
}

pub fn path(r: &mut Random) -> Vec<u8> {
    #[rustfmt::skip]
    const PARTS: &[&str] = &[
        "a", "b", "a.rs", "b.rs", "lib.rs", "src", "a b", "a\u{1}", "\u{1}", "a\u{8}b", "é", "à.rs", "z\r", "\r", ".", "..", "a#", "😀", "a-b",
        "a0", "A", "\u{7f}", " ", "",
    ];
    let mut path = r.pick(PARTS).to_string();
    for _ in 0..r.below(3) {
        path.push_str(r.pick(&["/", "/", "/", ".", "", "\u{1}"]));
        path.push_str(r.pick(PARTS));
    }
    if path.is_empty() {
        path.push('a');
    }
    path.into_bytes()
}

/// Files in the order that a tree asks for, with no path twice.
pub fn ordered(files: Vec<Plain>) -> Vec<Plain> {
    let by_rank: BTreeMap<Vec<u16>, Plain> = files.into_iter().map(|f| (rank(&f.0), f)).collect();
    by_rank.into_values().collect()
}

pub fn files(r: &mut Random, source: &str) -> Vec<Plain> {
    if r.chance(15) {
        // a tree's order of paths is not the order of their bytes, and functions of equal weight show it
        let paths = ["a/b", "a.b", "a b", "a-b", "a\u{1}b", "a", "a/", "ab", "a/.", "a.rs", "a/a.rs"];
        let mut made = Vec::new();
        for _ in 0..r.between(2, 5) {
            let text = format!("{}{}", limit_function(r), limit_function(r));
            made.push((r.pick(&paths).as_bytes().to_vec(), text.into_bytes()));
        }
        return ordered(made);
    }
    let (count, most) = match r.below(20) {
        0 => (0, 0),
        1..=13 => (r.between(1, 4), 300),
        14..=16 => (r.between(5, 12), 120),
        _ => (11, 0),
    };
    let mut made: Vec<Plain> = Vec::new();
    while made.len() < count {
        // 11 files each with a function: one more than report lists
        let text = if most == 0 {
            let n = r.between(1, 2);
            (0..n).map(|_| small_function(r)).collect::<String>().into_bytes()
        } else {
            tree_text(r, source, most)
        };
        made.push((path(r), text));
        if made.len() == count {
            made = ordered(made);
        }
    }
    if r.chance(2) && !made.is_empty() {
        // the longest path, and one byte more
        made[0].0 = vec![b'a'; r.between(MAX_PATH, MAX_PATH + 1)];
        made = ordered(made);
    }
    made
}

pub fn laid_out(files: &[Plain]) -> Vec<u8> {
    let mut tree = (files.len() as u32).to_le_bytes().to_vec();
    let mut place = entry_at(files.len());
    for (path, text) in files {
        for n in [place, path.len(), place + path.len(), text.len()] {
            tree.extend((n as u32).to_le_bytes());
        }
        place += path.len() + text.len();
    }
    for (path, text) in files {
        tree.extend(path);
        tree.extend(text);
    }
    tree
}

#[rustfmt::skip]
pub const NOT_UTF8: &[&[u8]] = &[
    b"\xff", b"\x80", b"\xc0\x80", b"\xc1\xbf", b"\xc2", b"\xc2\x41", b"\xe0\x80\x80", b"\xe0\x9f\xbf", b"\xe0\xa0", b"\xed\xa0\x80", b"\xf0\x80\x80\x80",
    b"\xf0\x8f\xbf\xbf", b"\xf0\x90\x80", b"\xf4\x90\x80\x80", b"\xf5\x80\x80\x80", b"\xe1\x80\xc0",
];

pub fn insert(r: &mut Random, into: &mut Vec<u8>, bytes: &[u8]) {
    let at = r.below(into.len() + 1);
    into.splice(at..at, bytes.iter().copied());
}

/// Paths and texts that are refused with 3 or 4, or only other ones.
pub fn damage_files(r: &mut Random, files: &mut Vec<Plain>) {
    if files.is_empty() {
        return;
    }
    let k = r.below(files.len());
    match r.below(9) {
        0 => {
            let j = r.below(files.len());
            files.swap(j, k);
        }
        1 => files.push(files[k].clone()),
        2 => insert(r, &mut files[k].0, b"\t"),
        3 => insert(r, &mut files[k].0, b"\n"),
        4 => {
            let at = if r.chance(70) { 0 } else { files[k].0.len() };
            files[k].0.insert(at, b'#');
        }
        5 => {
            let bytes = NOT_UTF8[r.below(NOT_UTF8.len())];
            insert(r, &mut files[k].0, bytes);
        }
        _ => {
            let bytes = NOT_UTF8[r.below(NOT_UTF8.len())];
            insert(r, &mut files[k].1, bytes);
        }
    }
}

/// A layout that is refused with 2, or by chance one that still holds.
pub fn damage_tree(r: &mut Random, tree: &mut Vec<u8>) {
    let table = (tree.len() / 2).min(entry_at(tree[0].into())).max(1);
    match r.below(9) {
        0 => {
            tree.pop();
        }
        1 => tree.push(b'a'),
        2 => tree.truncate(r.below(6)),
        3 => tree[0] = tree[0].wrapping_add(1),
        4 => tree[0] = tree[0].wrapping_sub(1),
        5 => tree[r.between(1, 3)] = r.between(1, 255) as u8,
        6 => {
            let at = tree.len().min(4 + 4 * r.below(8));
            tree[at - 1] = 255;
        }
        7 => {
            let at = r.below(table);
            tree[at] = tree[at].wrapping_add(1);
        }
        _ => {
            // a path without bytes, its text where the path was
            if tree.len() >= 20 {
                let (path, text) = (tree[8], tree[16]);
                if let Some(sum) = path.checked_add(text) {
                    (tree[8], tree[12], tree[16]) = (0, tree[4], sum);
                }
            }
        }
    }
}

pub fn baseline_line(r: &mut Random, files: &[Plain], funs: &[Fun]) -> Vec<u8> {
    #[rustfmt::skip]
    const NUMBERS: &[&str] = &[
        "0", "1", "2", "3", "15", "16", "100", "101", "+7", "+0", "++1", "+", "-1", "-0", "", " 1", "1 ", "007", "1_0", "0x1", "4294967295",
        "4294967296", "+4294967295", "18446744073709551615", "18446744073709551616", "99999999999999999999999", "00000000000000000000000000001", "1e1", "é", "1\r",
    ];
    if !funs.is_empty() && r.chance(60) {
        // a function of the tree, with its numbers, or one more or less, or any
        let f = &funs[r.below(funs.len())];
        let near = |r: &mut Random, n: usize| {
            if r.chance(10) {
                r.pick(&["4294967295", "4294967296", "18446744073709551615", "18446744073709551616"]).to_string()
            } else if r.chance(10) {
                r.pick(NUMBERS).to_string()
            } else {
                (n + r.below(3)).saturating_sub(1).to_string()
            }
        };
        let (cyclomatic, lines) = (near(r, f.cyclomatic as usize), near(r, f.lines));
        return format!("{}\t{}\t{cyclomatic}\t{lines}", f.file, f.name).into_bytes();
    }
    let mut line = match r.below(8) {
        0 => b"# a".to_vec(),
        1 => path(r),
        // two paths whose keys stand the other way round than the paths do
        2 | 3 => b"a\x01".to_vec(),
        4 => b"a".to_vec(),
        _ if !files.is_empty() => files[r.below(files.len())].0.clone(),
        _ => b"a".to_vec(),
    };
    if r.chance(3) {
        line.insert(0, b' ');
    }
    let mut parts = r.pick(&["a", "b", "c", "g", "h", "", "a ", "\u{1}"]).to_string();
    for _ in 0..2 {
        let number = if r.chance(70) { r.pick(&["0", "1", "2", "15", "16", "17", "100", "101"]) } else { r.pick(NUMBERS) };
        let _ = write!(parts, "\t{number}");
    }
    if r.chance(10) {
        parts.push_str(r.pick(&["\t", "\t1", "\t\t", "\té\t1"]));
    }
    if r.chance(8) {
        parts.truncate(parts.rfind('\t').unwrap_or(0));
    }
    line.push(b'\t');
    line.extend(parts.bytes());
    line
}

pub fn baseline(r: &mut Random, files: &[Plain], source: &str) -> Vec<u8> {
    let funs_of = |files: &[Plain]| Tree::read(laid_out(files)).funs;
    let updated = |files: &[Plain]| update_text(&funs_of(files)).0;
    let funs = funs_of(files);
    let mut text = match r.below(12) {
        0 => Vec::new(),
        1..=3 => updated(files),
        4..=6 => {
            // of a tree like this one
            let mut other = files.to_vec();
            for _ in 0..r.between(1, 3) {
                if other.is_empty() || r.chance(20) {
                    other.push((path(r), tree_text(r, source, 200)));
                } else if r.chance(30) {
                    let k = r.below(other.len());
                    other.remove(k);
                } else {
                    let k = r.below(other.len());
                    other[k].1 = tree_text(r, source, 300);
                }
                other = ordered(other);
            }
            updated(&other)
        }
        _ => {
            let mut text = if r.chance(30) { updated(files) } else { Vec::new() };
            for _ in 0..r.between(1, 12) {
                match r.below(12) {
                    0 => text.extend(r.pick(&["#", "#a\tb\t1\t1", "", " ", "\t\t\t", "\u{2003}", "a", "\r", "# é"]).bytes()),
                    1 => text.extend(soup(r, 3).bytes()),
                    _ => text.extend(baseline_line(r, files, &funs)),
                }
                text.extend(r.pick(&["\n", "\n", "\n", "\n", "\r\n", "\r\r\n", "\n\n", "\n\r"]).bytes());
            }
            text
        }
    };
    if r.chance(25) {
        // an end without LF, perhaps within a line
        let less = if r.chance(70) { 1 } else { r.below(4) };
        text.truncate(text.len().saturating_sub(less));
        text.extend(r.pick(&["", "\r", "\r", "\t"]).bytes());
    }
    if r.chance(15) && !text.is_empty() {
        // a number changed
        let at = r.below(text.len());
        if let Some(n) = text[at..].iter().position(u8::is_ascii_digit) {
            text[at + n] = b'0' + r.below(10) as u8;
        }
    }
    if r.chance(8) {
        let bytes = NOT_UTF8[r.below(NOT_UTF8.len())];
        insert(r, &mut text, bytes);
    }
    text
}

pub fn tree_bytes(r: &mut Random, source: &str) -> (Vec<u8>, Vec<u8>) {
    let mut files = files(r, source);
    let baseline = baseline(r, &files, source);
    if r.chance(20) {
        for _ in 0..r.between(1, 2) {
            damage_files(r, &mut files);
        }
    }
    let mut tree = laid_out(&files);
    if r.chance(10) {
        damage_tree(r, &mut tree);
    }
    (tree, baseline)
}

/// Mostly what is needed or more; sometimes one less, or far less.
pub fn lent_size(r: &mut Random, needed: usize) -> usize {
    match r.below(24) {
        0..=12 => needed,
        13..=21 => needed + r.between(1, 40),
        22 => needed.saturating_sub(1),
        _ => needed / 2,
    }
}
