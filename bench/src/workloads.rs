//! The inputs that are measured; `divisor` makes each that many times shorter.

use std::fmt::Write as _;

use crate::inputs::laid_out;
use crate::model::MAX_FUNCTIONS;
use crate::{oracle, original};

pub struct Load {
    /// the input's name and what its making adds to it
    pub name: String,
    pub files: Vec<(String, String)>,
    pub tree: Vec<u8>,
    pub baseline: Vec<u8>,
}

/// What a row is measured on.
pub enum Input<'a> {
    /// real Rust of this many bytes
    Real(&'a Real, usize),
    OneBody(&'a Real),
    /// real Rust in one file, without every nth bracket
    Damaged(&'a Real, usize),
    Tiny {
        over: bool,
    },
    /// 1,024 files of eight functions, all over, against update's baseline of them or of the same files in another folder
    Files {
        renamed: bool,
    },
    /// lines for functions that are there, in update's order or in another
    Alive {
        ordered: bool,
    },
    /// lines for functions that are not there
    Stale {
        ordered: bool,
    },
    Unclosed(&'a str),
    /// so many of the first and then as many of the second: signatures without a body inside brackets that close
    Nested(&'a str, &'a str),
    /// so many of the first, one fewer of the second, and the third behind them: a brace that searches come to, most of them inside a bracket
    Behind(&'a str, &'a str, &'a str),
    /// signatures without a body, with so many `[<>]` behind each, and a `;` behind so many of them
    Spread(usize, usize),
}

impl Input<'_> {
    pub fn name(&self) -> String {
        match self {
            Input::Real(_, size) => format!("real Rust, {} MB", *size as f64 / 1e6),
            Input::OneBody(_) => "real Rust in one body, 1 MB".to_string(),
            Input::Damaged(_, each) => format!("real Rust in one file without one bracket in {each}, 0.25 MB"),
            Input::Tiny { over } => format!("8,192 tiny functions, {} over", if *over { "all" } else { "none" }),
            Input::Files { renamed } => format!("1,024 files of eight functions, all over{}", if *renamed { ", folder renamed" } else { "" }),
            Input::Alive { ordered } => format!("8,192 baseline lines, all alive{}", order(*ordered)),
            Input::Stale { ordered } => format!("200,000 baseline lines, all stale{}", order(*ordered)),
            Input::Unclosed(piece) => format!("`{piece}` to 128 KB"),
            Input::Nested(front, back) => format!("`{front}` and as many `{back}`, 128 KB"),
            Input::Behind(front, "", tail) => format!("`{front}` to 128 KB, then `{tail}`"),
            Input::Behind(front, back, tail) => format!("`{front}` and one `{back}` fewer, 128 KB, then `{tail}`"),
            Input::Spread(brackets, 1) => format!("`fn a()` and {brackets} `[<>]`, then `;`, to 128 KB, then `{{ {{}}`"),
            Input::Spread(brackets, signatures) => format!("{signatures} times `fn a()` and {brackets} `[<>]`, then `;`, to 128 KB, then `{{ {{}}`"),
        }
    }

    pub fn made(&self, divisor: usize) -> Load {
        let mut load = match self {
            Input::Real(files, size) => real(files, *size, divisor),
            Input::OneBody(files) => one_body(files, divisor),
            Input::Damaged(files, each) => damaged(files, *each, divisor),
            Input::Tiny { over } => tiny(*over, divisor),
            Input::Files { renamed } => files(*renamed, divisor),
            Input::Alive { ordered } => alive(*ordered, divisor),
            Input::Stale { ordered } => stale(*ordered, divisor),
            Input::Unclosed(piece) => unclosed(piece, divisor),
            Input::Nested(front, back) => nested(front, back, divisor),
            Input::Behind(front, back, tail) => behind(front, back, tail, divisor),
            Input::Spread(brackets, signatures) => spread(*brackets, *signatures, divisor),
        };
        load.name.insert_str(0, &self.name());
        load
    }
}

impl Load {
    fn new(name: &str, files: Vec<(String, String)>, baseline: Vec<u8>) -> Load {
        let plain: Vec<_> = files.iter().map(|(p, t)| (p.as_bytes().to_vec(), t.as_bytes().to_vec())).collect();
        Load { name: name.to_string(), tree: laid_out(&plain), files, baseline }
    }
}

const LEAST_FILE: usize = 20_000;

pub struct Real {
    /// real files, each with its number of functions
    files: Vec<(String, usize)>,
}

impl Real {
    pub fn new(files: &[String]) -> Real {
        // short files are put together, since a tree has at most 1,024
        let mut texts = vec![String::new()];
        for text in files {
            if texts.last().is_some_and(|t| t.len() >= LEAST_FILE) {
                texts.push(String::new());
            }
            texts.last_mut().expect("a text").push_str(text);
        }
        Real { files: texts.into_iter().map(|t| (t.clone(), oracle::scan("", &t).len())).collect() }
    }
}

/// Real files, again and again under other paths. Where the functions would become too many, a file stands in one body.
fn real(real: &Real, size: usize, divisor: usize) -> Load {
    let wanted = size / divisor;
    let mut files = Vec::new();
    let mut made = 0;
    let mut functions = 0;
    while made < wanted {
        let (text, count) = &real.files[files.len() % real.files.len()];
        let allowed = MAX_FUNCTIONS * made.max(20_000) / size;
        let wrapped = functions + count > allowed.min(MAX_FUNCTIONS);
        let mut text = if wrapped { format!("fn all() {{\n{text}\n}}\n") } else { text.clone() };
        if made + text.len() > wanted {
            let mut end = wanted - made;
            while !text.is_char_boundary(end) {
                end -= 1;
            }
            text.truncate(end);
        }
        functions += if wrapped { 1 } else { *count };
        made += text.len().max(1);
        files.push((format!("src/f{:05}.rs", files.len()), text));
    }
    let funs: Vec<oracle::Fun> = files.iter().flat_map(|(p, t)| oracle::scan(p, t)).collect();
    let baseline = original::update_text(&funs).0;
    Load::new(&format!(", {} functions", funs.len()), files, baseline)
}

/// Real Rust in the body of one function.
fn one_body(real: &Real, divisor: usize) -> Load {
    let all: String = real.files.iter().map(|file| file.0.as_str()).collect();
    let text = format!("fn all() {{\n{}\n}}\n", all.repeat(1_000_000 / divisor / all.len() + 1));
    Load::new("", vec![("src/a.rs".to_string(), text)], Vec::new())
}

/// Real Rust as it may stand in an editor: brackets are missing, so that lists and bodies end elsewhere or nowhere.
fn damaged(real: &Real, each: usize, divisor: usize) -> Load {
    let mut brackets = 0;
    let mut text = String::new();
    let all = real.files.iter().cycle().flat_map(|file| file.0.chars());
    for c in all {
        if text.len() >= 250_000 / divisor {
            break;
        }
        if "()[]{}".contains(c) {
            brackets += 1;
            if brackets % each == 0 {
                continue;
            }
        }
        text.push(c);
    }
    Load::new("", vec![("src/a.rs".to_string(), text)], Vec::new())
}

/// As many functions as there may be, in one file.
fn tiny(over: bool, divisor: usize) -> Load {
    let mut text = String::new();
    for k in 0..MAX_FUNCTIONS / divisor {
        let body = if over { "{{{{{{}}}}}}" } else { "{}" };
        let _ = writeln!(text, "fn f{k}(){body}");
    }
    Load::new("", vec![("src/a.rs".to_string(), text)], Vec::new())
}

/// As many files as there may be, with as many functions as there may be.
fn files(renamed: bool, divisor: usize) -> Load {
    let text: String = (0..8).map(|k| format!("fn f{k}(){{{{{{{{{{{{}}}}}}}}}}}}\n")).collect();
    let under = |folder: &str| -> Vec<(String, String)> {
        (0..MAX_FUNCTIONS / 8 / divisor).map(|k| (format!("{folder}/f{k:04}.rs"), text.clone())).collect()
    };
    let listed = under(if renamed { "source" } else { "src" });
    let funs: Vec<oracle::Fun> = listed.iter().flat_map(|(p, t)| oracle::scan(p, t)).collect();
    Load::new("", under("src"), original::update_text(&funs).0)
}

fn order(ordered: bool) -> &'static str {
    if ordered { "" } else { ", in another order" }
}

/// The lines with which update begins a baseline.
const HEADER: &str = "\
# Accepted complexity, written by `cargo run --bin complexity -- --update`.
#
# Only functions over the thresholds are listed. `--check` fails when one of
# these gets worse, or when a function not listed here goes over. Most of
# these are one Rust function per Fortran subroutine, which is deliberate:
# see the module documentation in src/bin/complexity.rs.
#
# file\tfunction\tcyclomatic\tlines
";

/// In update's order names rise byte by byte; else they rise by their numbers.
fn lines(count: usize, ordered: bool) -> Vec<u8> {
    let mut lines: Vec<String> = (0..count).map(|k| format!("src/a.rs\tf{k}\t1\t1\n")).collect();
    if ordered {
        lines.sort();
    }
    lines.insert(0, HEADER.to_string());
    lines.concat().into_bytes()
}

fn alive(ordered: bool, divisor: usize) -> Load {
    let load = tiny(true, divisor);
    Load { baseline: lines(MAX_FUNCTIONS / divisor, ordered), ..load }
}

fn stale(ordered: bool, divisor: usize) -> Load {
    let files = vec![("src/b.rs".to_string(), "fn a() {}\n".to_string())];
    Load::new("", files, lines(200_000 / divisor, ordered))
}

/// One signature or body after another that never closes.
fn unclosed(piece: &str, divisor: usize) -> Load {
    let text = piece.repeat(128 * 1024 / piece.len() / divisor);
    Load::new("", vec![("src/a.rs".to_string(), text)], Vec::new())
}

/// Signatures in each other's brackets, and a `;` and a function behind them.
fn nested(front: &str, back: &str, divisor: usize) -> Load {
    let deep = 128 * 1024 / (front.len() + back.len()) / divisor;
    let text = format!("{}{};fn b(){{}}", front.repeat(deep), back.repeat(deep));
    Load::new("", vec![("src/a.rs".to_string(), text)], Vec::new())
}

/// Signatures in each other's brackets, one of which is not closed, and a text behind them.
fn behind(front: &str, back: &str, tail: &str, divisor: usize) -> Load {
    let deep = 128 * 1024 / (front.len() + back.len()) / divisor;
    let text = format!("{}{}{tail}", front.repeat(deep), back.repeat(deep - 1));
    Load::new("", vec![("src/a.rs".to_string(), text)], Vec::new())
}

/// Searches of a middling length: each goes on to the next `;`.
fn spread(brackets: usize, signatures: usize, divisor: usize) -> Load {
    let piece = format!("fn a(){}", "[<>]".repeat(brackets)).repeat(signatures) + ";";
    behind(&piece, "", "{ {}", divisor)
}
