//! Times of the proved library and of the Rust original, in one process: `bench ROOT [FILTER]` prints a table in Markdown. README.md says what is
//! measured. Exit status 1 where the two sides give other bytes, 2 where the original or a row for the filter is missing.

use std::hint::black_box;
use std::path::PathBuf;

#[allow(dead_code)]
#[macro_use]
#[path = "../../differential/src/memory.rs"]
mod memory;
include!(concat!(env!("OUT_DIR"), "/module.rs"));
#[allow(dead_code)]
#[path = "../../differential/src/inputs.rs"]
mod inputs;
#[path = "../../differential/src/library.rs"]
mod library;
mod measure;
#[allow(dead_code)]
#[path = "../../differential/src/model.rs"]
mod model;
#[allow(dead_code)]
#[path = "../../differential/src/original.rs"]
mod original;
#[allow(dead_code)]
#[path = "../../differential/src/sources.rs"]
mod sources;
mod workloads;

use library::Slices;
use measure::Row;
use model::{MAX_BASELINE, MAX_FUNCTIONS, RECORD_WIDTH};
use oracle::Fun;
use workloads::{Input, Load, Real};

#[derive(Clone, Copy, PartialEq, Eq)]
pub enum Call {
    Blank,
    Scan,
    Check,
    Update,
    Report,
}

impl Call {
    fn text(self) -> &'static str {
        match self {
            Call::Blank => "blank",
            Call::Scan => "scan",
            Call::Check => "check",
            Call::Update => "update",
            Call::Report => "report",
        }
    }
}

/// The library's buffers, lent again to each call.
pub struct Buffers {
    work: Vec<u8>,
    records: Vec<u8>,
    output: Vec<u8>,
    counts: Vec<u8>,
}

impl Buffers {
    fn written(&self) -> &[u8] {
        let size = u32::from_le_bytes(self.counts[..4].try_into().expect("four bytes")) as usize;
        &self.output[..size]
    }
}

/// From tree bytes to listing.
fn port(call: Call, load: &Load, b: &mut Buffers) {
    if call == Call::Blank {
        for (_, text) in &load.files {
            assert!(library::blank(text.as_bytes(), &mut b.work) == 0, "blank refuses");
        }
        return;
    }
    let mut s = Slices { work: &mut b.work, records: &mut b.records, output: &mut b.output, counts: &mut b.counts };
    let number = match call {
        Call::Scan => library::scan(&load.tree, &mut s),
        Call::Check => library::check(&load.tree, &load.baseline, &mut s),
        Call::Update => library::update(&load.tree, &mut s),
        _ => library::report(&load.tree, &mut s),
    };
    assert!(number == 0, "{} refuses with {number}", call.text());
}

fn scanned(load: &Load) -> Vec<Fun> {
    load.files.iter().flat_map(|(path, text)| oracle::scan(path, text)).collect()
}

/// The original's scan of the same texts and its text, which it leaves in memory.
fn original_call(call: Call, load: &Load) {
    match call {
        Call::Blank => {
            for (_, text) in &load.files {
                black_box(oracle::blanked(text));
            }
        }
        Call::Scan => {
            black_box(scanned(load));
        }
        Call::Check => {
            memory::write("", &load.baseline).expect("in memory");
            black_box(oracle::check(&scanned(load)));
        }
        Call::Update => oracle::update(&scanned(load)),
        Call::Report => oracle::report(&scanned(load)),
    }
}

/// Both sides once: the listings must be the same.
fn agree(call: Call, load: &Load, b: &mut Buffers) {
    port(call, load, b);
    memory::printed();
    original_call(call, load);
    let printed = memory::printed();
    let same = match call {
        Call::Blank => b.work.starts_with(&oracle::blanked(&load.files.last().expect("a file").1)),
        Call::Scan => u32::from_le_bytes(b.counts[..4].try_into().expect("four bytes")) as usize == scanned(load).len(),
        Call::Update => b.written() == memory::file(),
        Call::Check | Call::Report => b.written() == printed.as_bytes(),
    };
    if !same {
        eprintln!("bench: {} on {}: the two sides differ", call.text(), load.name);
        std::process::exit(1);
    }
}

/// What to say of a side that would take too long.
fn foreseen(is_port: bool, call: Call, input: &Input, b: &mut Buffers) -> Option<String> {
    measure::foreseen(&mut |divisor| {
        let load = input.made(divisor);
        let taken = measure::seconds(|| if is_port { port(call, &load, b) } else { original_call(call, &load) });
        memory::printed();
        taken
    })
}

fn row(call: Call, input: &Input, b: &mut Buffers) {
    let too_long = (foreseen(true, call, input, b), foreseen(false, call, input, b));
    let divisor = if too_long == (None, None) { 1 } else { 32 };
    agree(call, &input.made(divisor), b);
    let load = input.made(1);
    let mut row = Row::default();
    let some = too_long.0.is_none() || too_long.1.is_none();
    while some && row.wanted() {
        if too_long.0.is_none() {
            row.port.push(measure::seconds(|| port(call, &load, b)));
        }
        if too_long.1.is_none() {
            row.original.push(measure::seconds(|| original_call(call, &load)));
            memory::printed();
        }
    }
    std::println!("| {} | {} | {}", load.name, call.text(), row.cells(&too_long.0, &too_long.1));
}

/// The rows of the table, in order.
fn rows(real: &Real) -> Vec<(Input<'_>, Call)> {
    let all = [Call::Blank, Call::Scan, Call::Check, Call::Update, Call::Report];
    let whole = &all[1..];
    let mut rows = Vec::new();
    for size in [250_000, 1_000_000, 4_000_000, 16_000_000] {
        rows.extend(all.map(|call| (Input::Real(real, size), call)));
    }
    rows.push((Input::OneBody(real), Call::Scan));
    rows.extend([10, 100, 1_000].map(|each| (Input::Damaged(real, each), Call::Scan)));
    for over in [false, true] {
        rows.extend(whole.iter().map(|&call| (Input::Tiny { over }, call)));
    }
    rows.extend(whole.iter().map(|&call| (Input::Files { renamed: false }, call)));
    rows.push((Input::Files { renamed: true }, Call::Check));
    for ordered in [true, false] {
        rows.push((Input::Alive { ordered }, Call::Check));
        rows.push((Input::Stale { ordered }, Call::Check));
    }
    for piece in ["fn a(", "fn a(){", "#[cfg(test)]{", "fn a(){{}", "fn a()[", "fn a()<", "fn a()[{", "<fn a()<[{}]>>"] {
        rows.push((Input::Unclosed(piece), Call::Scan));
    }
    for (front, back) in [("fn a(", ")"), ("[", "fn a()]"), ("fn a()[", "]"), ("fn a()<", ">"), ("fn a([", "])"), ("fn a(fn b()[", "])")] {
        rows.push((Input::Nested(front, back), Call::Scan));
    }
    for (front, back) in [("fn a()<", ">"), ("fn a()[", "]")] {
        rows.extend(["{", "{ {}"].map(|tail| (Input::Behind(front, back, tail), Call::Scan)));
    }
    rows.push((Input::Behind("fn a()[fn a()]", "", "[[{}]]"), Call::Scan));
    rows.push((Input::Behind("<fn a()<[{]>>[fn a()<{>]", "", "}"), Call::Scan));
    rows.push((Input::Behind("fn a() ", "", "{ {}"), Call::Scan));
    rows.push((Input::Behind("[fn a()];", "", "fn b(){}"), Call::Scan));
    rows.push((Input::Behind("fn a() [;] ];[", "", "]fn b(){}"), Call::Scan));
    rows.extend([(70, 3), (25, 42), (1_000, 8), (33, 1), (300, 4)].map(|(brackets, signatures)| (Input::Spread(brackets, signatures), Call::Scan)));
    rows
}

/// The rows whose name, which is that of the input and of the call, holds the filter. None: the names are told.
fn wanted<'a>(real: &'a Real, filter: &str) -> Vec<(Input<'a>, Call)> {
    let named = |(input, call): &(Input, Call)| format!("{}, {}", input.name(), call.text());
    let rows = rows(real);
    if !rows.iter().any(|row| named(row).contains(filter)) {
        eprintln!("bench: no row's name holds '{filter}'. The rows:");
        for row in &rows {
            eprintln!("  {}", named(row));
        }
    }
    rows.into_iter().filter(|row| named(row).contains(filter)).collect()
}

fn main() {
    let root = PathBuf::from(std::env::args().nth(1).expect("the project's root"));
    let Some(sources) = sources::read(&root) else {
        eprintln!("bench: no file {}", env!("ORIGINAL"));
        std::process::exit(2);
    };
    let real = Real::new(&sources.files);
    let rows = wanted(&real, &std::env::args().nth(2).unwrap_or_default());
    if rows.is_empty() {
        std::process::exit(2);
    }
    let mut buffers = Buffers {
        work: vec![0; model::MAX_TREE],
        records: vec![0; RECORD_WIDTH * MAX_FUNCTIONS],
        output: vec![0; MAX_BASELINE],
        counts: vec![0; 16],
    };
    std::println!("load average at the start: {}", measure::load_average());
    std::println!();
    std::println!("| Input | Call | Port, ms | Original, ms | Port / original | Lowest to highest | Runs |");
    std::println!("|---|---|---|---|---|---|---|");
    for (input, call) in &rows {
        row(*call, input, &mut buffers);
    }
    std::println!();
    std::println!("load average at the end: {}", measure::load_average());
}
