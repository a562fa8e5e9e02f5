//! The proved library against the Rust original, in one process: `differential ROOT [SEED] [COUNT] [SECONDS or FILE]`. README.md says what is
//! compared. Exit status: 0 no difference, 1 some, 2 nothing could be compared. `differential ROOT --list FILE [SEED] [COUNT]` writes a list of
//! the original's answers instead.

use std::collections::BTreeMap;
use std::path::{Path, PathBuf};
use std::time::{Duration, Instant};

#[macro_use]
mod memory;
include!(concat!(env!("OUT_DIR"), "/module.rs"));
mod calls;
mod cases;
mod describe;
mod failures;
#[allow(dead_code)]
mod inputs;
mod library;
mod list;
#[allow(dead_code)]
mod model;
mod original;
mod sources;

use calls::{compare, compare_blank, Name, NAMES};
use cases::{slack, subject, Kind, Subject, KINDS};
use failures::Failure;
use inputs::{laid_out, Random};
use model::Tree;

/// Differences after which a run ends.
const ENOUGH: usize = 10;

#[derive(Default)]
struct Tally {
    cases: BTreeMap<Kind, usize>,
    calls: list::Numbers,
    functions: usize,
    regressed: usize,
    stale: usize,
    recorded: usize,
    with_function: usize,
    below: usize,
}

impl Tally {
    /// What the listings of successful calls hold.
    fn found(&mut self, name: Name, counts: &[usize]) {
        match (name, counts) {
            (Name::Check, &[_, _, regressed, stale]) => {
                self.regressed += usize::from(regressed > 0);
                self.stale += usize::from(stale > 0);
            }
            (Name::Update, &[_, _, recorded]) => self.recorded += usize::from(recorded > 0),
            _ => {}
        }
    }
}

/// All calls on one subject.
fn run(kind: Kind, subject: &Subject, r: &mut Random, tally: &mut Tally, failures: &mut Vec<Failure>) {
    let (tree, baseline): (Vec<u8>, &[u8]) = match subject {
        Subject::Text(text) => {
            let room = slack(r, text.len());
            match compare_blank(text, room.output) {
                Ok(number) => *tally.calls.entry((Name::Blank, number)).or_default() += 1,
                Err(what) => failures.push(Failure::new(Name::Blank, text, &[], room, what)),
            }
            (laid_out(&[(b"a".to_vec(), text.clone())]), &[])
        }
        Subject::Tree(tree, baseline) => (tree.clone(), baseline),
    };
    let text_only = matches!(subject, Subject::Text(_));
    let tree = Tree::read(tree);
    tally.functions += tree.funs.len();
    tally.with_function += usize::from(!tree.funs.is_empty());
    if text_only && tree.files.iter().any(|f| original::falls_below(&f.text)) {
        tally.below += 1;
    }
    for name in NAMES {
        // of a text alone the other calls say little more; of a tree's bytes, blanking
        let asked = match name {
            Name::Blank => !text_only && r.chance(5),
            Name::Scan => true,
            _ => !text_only || (kind != Kind::Short && r.chance(15)),
        };
        if !asked {
            continue;
        }
        let room = slack(r, tree.bytes.len());
        match compare(name, &tree, baseline, room) {
            Ok((number, counts)) => {
                *tally.calls.entry((name, number)).or_default() += 1;
                tally.found(name, &counts);
            }
            Err(what) => failures.push(Failure::new(name, &tree.bytes, baseline, room, what)),
        }
    }
}

fn show_numbers(calls: &list::Numbers) {
    for name in NAMES {
        let answered: Vec<String> = calls.iter().filter(|c| c.0 .0 == name).map(|c| format!("{} x {}", c.0 .1, c.1)).collect();
        let all: usize = calls.iter().filter(|c| c.0 .0 == name).map(|c| c.1).sum();
        std::println!("  {:6} {all} calls; numbers: {}", name.text(), answered.join(", "));
    }
}

fn show(tally: &Tally, started: Instant, differences: usize) {
    let all: usize = tally.cases.values().sum();
    std::println!("{all} cases in {} s", started.elapsed().as_secs());
    for kind in KINDS {
        std::println!("  {:32} {}", kind.text(), tally.cases.get(&kind).unwrap_or(&0));
    }
    show_numbers(&tally.calls);
    std::println!(
        "  functions {}, inputs with a function {}, texts whose parameter count falls below 0: {}",
        tally.functions,
        tally.with_function,
        tally.below
    );
    std::println!(
        "  listings with regressions {}, with stale entries {}, with recorded functions {}",
        tally.regressed,
        tally.stale,
        tally.recorded
    );
    std::println!("differences: {differences}");
}

/// Writes the list of the original's answers; the exit status.
fn write_list(root: &Path, args: &[String]) -> i32 {
    let number = |k: usize, otherwise: u64| args.get(k).map_or(otherwise, |a| a.parse().expect("a number"));
    let (Some(file), Some(sources)) = (args.first(), sources::read(root)) else {
        eprintln!("differential: --list FILE [SEED] [COUNT], and the file {}", env!("ORIGINAL"));
        return 2;
    };
    match list::write(Path::new(file), number(1, 1), number(2, 600) as usize, &sources) {
        Ok(numbers) => {
            std::println!("{file}: {} calls", numbers.values().sum::<usize>());
            show_numbers(&numbers);
            0
        }
        Err(error) => {
            eprintln!("differential: {file}: {error}");
            2
        }
    }
}

fn main() {
    let args: Vec<String> = std::env::args().skip(1).collect();
    let root = PathBuf::from(args.first().expect("the project's root"));
    if args.get(1).is_some_and(|a| a == "--list") {
        std::process::exit(write_list(&root, &args[2..]));
    }
    let number = |k: usize, otherwise: u64| args.get(k).map_or(otherwise, |a| a.parse().expect("a number"));
    let seed = number(1, 1);
    let count = number(2, 100_000) as usize;
    let saved = root.join("target/differential");
    if let Some(file) = args.get(3).filter(|a| a.parse::<u64>().is_err()) {
        std::process::exit(failures::replay(Path::new(file)));
    }
    let seconds = number(3, u64::MAX >> 8);
    let Some(sources) = sources::read(&root) else {
        eprintln!("differential: no file {}", env!("ORIGINAL"));
        std::process::exit(2);
    };
    let started = Instant::now();
    let mut told = started;
    let mut tally = Tally::default();
    let mut failures: Vec<Failure> = Vec::new();
    let first = std::env::var("FIRST").map_or(0, |f| f.parse().expect("FIRST is a number"));
    for case in first..first + count {
        if started.elapsed() >= Duration::from_secs(seconds) || failures.len() >= ENOUGH {
            break;
        }
        let kind = Kind::of(case);
        let (subject, mut r) = subject(kind, seed, case, &sources);
        let before = failures.len();
        run(kind, &subject, &mut r, &mut tally, &mut failures);
        for failure in &failures[before..] {
            std::println!("case {case} ({}), {}", kind.text(), failure.said());
        }
        *tally.cases.entry(kind).or_default() += 1;
        if told.elapsed() >= Duration::from_secs(60) {
            told = Instant::now();
            eprintln!("{} cases, {} differences", case + 1 - first, failures.len());
        }
    }
    show(&tally, started, failures.len());
    if failures.is_empty() {
        return;
    }
    failures::save_smallest(failures, &saved);
    std::process::exit(1);
}
