//! Random texts and trees with the answers that the Rust program gives, written as theorems
//! that the definitions must compute to.
//!
//! `generate SOURCE SEED TEXTS TREES USES UNFOLDING OUT CASES`: SOURCE is complexity.rs, pieces of
//! which serve as texts; USES and UNFOLDING are files with the lines that bring the definitions in
//! and let them compute; OUT is the folder of the modules. CASES gets one line for each case: its
//! name, its size and its input.

use std::collections::BTreeMap;
use std::fmt::Write as _;

// `compare` copies the modules of ../src and the original, as oracle.rs, beside a copy of this file
#[allow(dead_code)]
#[macro_use]
mod memory;
#[allow(dead_code)]
mod inputs;
#[allow(dead_code)]
mod model;
#[allow(dead_code)]
mod oracle;
#[allow(dead_code)]
mod original;

use inputs::{lent_size, text, tree_bytes, Random};
use model::{after, Lent, Need, Tree, RECORD_WIDTH};
use original::{check_text, functions, report_text, update_text, Found};

/// Cases to a module.
const PER_MODULE: usize = 25;

// ---------------------------------------------------------------------------------------------
// Terms of antt

/// A list of bytes in pieces: equal bytes, plain text, numbers.
fn term(bytes: &[u8]) -> String {
    let plain = |b: u8| (32..127).contains(&b) || [b'\n', b'\t', b'\r'].contains(&b);
    let mut parts = Vec::new();
    let mut rest = bytes;
    while !rest.is_empty() {
        let equal = rest.iter().take_while(|&&b| b == rest[0]).count();
        let texts = rest.iter().take(200).take_while(|&&b| plain(b)).count();
        let taken = if equal >= 20 {
            parts.push(format!("replicate {equal} {}", rest[0]));
            equal
        } else if texts > 0 {
            // the escapes of antt's texts are Rust's
            let text = std::str::from_utf8(&rest[..texts]).expect("plain text");
            let escaped: String =
                text.chars().map(|c| if c == '\'' { "'".into() } else { c.escape_default().to_string() }).collect();
            parts.push(format!("ascii \"{escaped}\""));
            texts
        } else {
            let others = rest.iter().take(40).take_while(|&&b| !plain(b)).count();
            let numbers: String = rest[..others].iter().map(|b| format!("{b} ∷ ")).collect();
            parts.push(format!("({numbers}[])"));
            others
        };
        rest = &rest[taken..];
    }
    match parts.len() {
        0 => "[]".to_string(),
        1 => format!("({})", parts[0]),
        _ => format!("(joined ({} ∷ []))", parts.join(" ∷ ")),
    }
}

fn sums_term(sums: &[(usize, usize)]) -> String {
    let entries: String = sums.iter().map(|(file, sum)| format!("record {{ file = {file}; sum = {sum} }} ∷ ")).collect();
    format!("({entries}[])")
}

fn functions_term(found: &[Found]) -> String {
    let mut all = String::new();
    for (f, name_at) in found {
        let _ = write!(
            all,
            "record {{ name_at = {name_at}; name = {}; line = {}; lines = {}; cyclomatic = {}; nesting = {}; params = {} }} ∷ ",
            term(f.name.as_bytes()),
            f.line,
            f.lines,
            f.cyclomatic,
            f.nesting,
            f.params
        );
    }
    format!("({all}[])")
}

// ---------------------------------------------------------------------------------------------
// The modules

struct Modules {
    out: String,
    uses: String,
    unfolding: String,
    names: Vec<String>,
    current: String,
    cases: String,
}

impl Modules {
    fn theorem(&mut self, name: &str, left: &str, right: &str) {
        let _ = write!(self.current, "pub {name} : {left} ≡ {right}\n{}{name} = refl\n\n", self.unfolding);
    }

    fn abbreviation(&mut self, name: &str, bytes: &[u8]) {
        let _ = write!(self.current, "abbrev pub {name} : List ℕ\n{name} = {}\n\n", term(bytes));
    }

    fn case(&mut self, name: &str, size: usize, input: &str) {
        let _ = writeln!(self.cases, "{name}\t{size}\t{input}");
    }

    fn end(&mut self, name: String) {
        if !self.current.is_empty() {
            let text = format!("{}\n{}", self.uses, self.current);
            std::fs::write(format!("{}/{name}.antt", self.out), text).expect("a module is written");
            self.names.push(name);
            self.current.clear();
        }
    }
}

fn write_text(modules: &mut Modules, name: &str, text: &str, found: &[Found]) {
    let source = term(text.as_bytes());
    modules.case(name, text.len(), &text.as_bytes().escape_ascii().to_string());
    modules.abbreviation(name, text.as_bytes());
    modules.theorem(&format!("{name}-blanked"), &format!("blanked {source}"), &term(&original::blanked(text)));
    modules.theorem(&format!("{name}-functions"), &format!("functions (blanked {name})"), &functions_term(found));
}

/// How often each number was answered, by call.
type Tally = BTreeMap<(&'static str, usize), usize>;

fn write_tree(modules: &mut Modules, r: &mut Random, name: &str, tree: &Tree, baseline: &[u8], tally: &mut Tally) {
    let base = format!("{name}-baseline");
    let fresh = |r: &mut Random, listing: usize| Lent {
        work: vec![170; lent_size(r, tree.bytes.len())],
        records: vec![187; lent_size(r, RECORD_WIDTH * tree.funs.len())],
        output: vec![204; lent_size(r, listing)],
        counts: Vec::new(),
    };
    let on_success = |number: usize, count: usize| if number == 0 { count } else { 0 };
    let count = tree.funs.len();

    modules.abbreviation(name, &tree.bytes);
    modules.abbreviation(&base, baseline);
    modules.theorem(&format!("{name}-refusal"), &format!("tree_refusal {name}"), &tree.refusal.to_string());
    *tally.entry(("refusal", tree.refusal)).or_default() += 1;

    let lent = fresh(r, 0);
    let number = tree.number(&lent, &Need::default());
    let left = after(tree, &lent, number, &[], &[]);
    *tally.entry(("scan", number)).or_default() += 1;
    modules.theorem(
        &format!("{name}-scan"),
        &format!("scan_call gate {name} {} {}", term(&lent.work), term(&lent.records)),
        &format!(
            "record {{ answer = record {{ number = {number}; written = 0; functions = {} }}; work = {}; records = {} }}",
            on_success(number, count),
            term(&left.work),
            term(&left.records)
        ),
    );
    let mut sizes = format!("scan work {} records {}", lent.work.len(), lent.records.len());

    let (listing, regressed, stale) = check_text(&tree.funs, baseline);
    let lent = fresh(r, listing.len());
    let number = tree.number(&lent, &Need { listing: listing.len(), ..Need::default() });
    let left = after(tree, &lent, number, &listing, &[]);
    *tally.entry(("check", number)).or_default() += 1;
    modules.theorem(
        &format!("{name}-check"),
        &format!("check_call gate gate_limits {name} {base} {} {} {}", term(&lent.work), term(&lent.records), term(&lent.output)),
        &format!(
            "record {{ answer = record {{ number = {number}; written = {}; functions = {}; regressed = {}; stale = {} }}; work = {}; records = {}; output = {} }}",
            on_success(number, listing.len()),
            on_success(number, count),
            on_success(number, regressed),
            on_success(number, stale),
            term(&left.work),
            term(&left.records),
            term(&left.output)
        ),
    );
    let _ = write!(sizes, "; check work {} records {} output {}", lent.work.len(), lent.records.len(), lent.output.len());

    let (listing, recorded) = update_text(&tree.funs);
    let lent = fresh(r, listing.len());
    let number = tree.number(&lent, &Need { listing: listing.len(), ..Need::default() });
    let left = after(tree, &lent, number, &listing, &[]);
    *tally.entry(("update", number)).or_default() += 1;
    modules.theorem(
        &format!("{name}-update"),
        &format!("update_call gate gate_limits {name} {} {} {}", term(&lent.work), term(&lent.records), term(&lent.output)),
        &format!(
            "record {{ answer = record {{ number = {number}; written = {}; functions = {}; recorded = {} }}; work = {}; records = {}; output = {} }}",
            on_success(number, listing.len()),
            on_success(number, count),
            on_success(number, recorded),
            term(&left.work),
            term(&left.records),
            term(&left.output)
        ),
    );
    let _ = write!(sizes, "; update work {} records {} output {}", lent.work.len(), lent.records.len(), lent.output.len());

    let listing = report_text(&tree.funs);
    let lent = fresh(r, listing.len());
    let sums: Vec<(usize, usize)> =
        (0..lent_size(r, tree.files.len()).min(tree.files.len() + 3)).map(|k| (900 + k, 800 + k)).collect();
    let short_of_sums = sums.len() < tree.files.len();
    let number = tree.number(&lent, &Need { short_of_sums, listing: listing.len(), ..Need::default() });
    let left = after(tree, &lent, number, &listing, &[]);
    let sums_left = if [0, 9].contains(&number) { tree.sums_after(&sums) } else { sums.clone() };
    *tally.entry(("report", number)).or_default() += 1;
    modules.theorem(
        &format!("{name}-report"),
        &format!(
            "report_call gate gate_limits {name} {} {} {} {}",
            term(&lent.work),
            term(&lent.records),
            sums_term(&sums),
            term(&lent.output)
        ),
        &format!(
            "record {{ answer = record {{ number = {number}; written = {}; functions = {} }}; work = {}; records = {}; sums = {}; output = {} }}",
            on_success(number, listing.len()),
            on_success(number, count),
            term(&left.work),
            term(&left.records),
            sums_term(&sums_left),
            term(&left.output)
        ),
    );
    let _ = write!(
        sizes,
        "; report work {} records {} sums {} output {}",
        lent.work.len(),
        lent.records.len(),
        sums.len(),
        lent.output.len()
    );
    let input = format!("tree {} | baseline {} | {sizes}", tree.bytes.escape_ascii(), baseline.escape_ascii());
    modules.case(name, tree.bytes.len() + baseline.len(), &input);
}

const BYTES: &str = "\
use Prim.Native.Nat.{ℕ}
use Prim.Native.Char.{code}
use Prim.Native.String.{String, [] as end, ◌∷◌ as ◌then◌}
use mathlib.Core.List.{List, [], ◌∷◌, ◌++◌}

abbrev pub ascii : String → List ℕ
ascii end = []
ascii (◌then◌ c s) = code c ∷ ascii s

abbrev pub joined : List (List ℕ) → List ℕ
joined [] = []
joined (s ∷ ss) = s ++ joined ss
";

const HEAD: &str = "\
use Prim.Native.Nat.{ℕ}
use mathlib.Core.Path.{◌≡◌, refl}
use mathlib.Core.List.{List, [], ◌∷◌}
use lib.ListN.{replicate}
use Rattle.compared.specs.Pieces.{ascii, joined}
";

fn main() {
    let args: Vec<String> = std::env::args().skip(1).collect();
    let [source, seed, texts, trees, uses, unfolding, out, cases] = &args[..] else {
        eprintln!("usage: generate SOURCE SEED TEXTS TREES USES UNFOLDING OUT CASES");
        std::process::exit(2);
    };
    let read = |path: &str| std::fs::read_to_string(path).expect("a file that can be read");
    let source = read(source);
    let seed: u64 = seed.parse().expect("SEED is a number");
    let texts: usize = texts.parse().expect("TEXTS is a number");
    let trees: usize = trees.parse().expect("TREES is a number");
    let mut modules = Modules {
        out: out.clone(),
        uses: format!("{HEAD}{}", read(uses)),
        unfolding: read(unfolding),
        names: vec!["Pieces".to_string()],
        current: String::new(),
        cases: String::new(),
    };

    let mut with_function = 0;
    for k in 1..=texts {
        let mut r = Random::of(seed, 1, k);
        // at least half of the texts have a function
        let wanted = 2 * with_function < k;
        let (text, found) = loop {
            let text = text(&mut r, &source, 400);
            let found = functions("", &text);
            if text.len() >= 5 && (!wanted || !found.is_empty()) {
                break (text, found);
            }
        };
        with_function += usize::from(!found.is_empty());
        write_text(&mut modules, &format!("text{k}"), &text, &found);
        if k % PER_MODULE == 0 || k == texts {
            modules.end(format!("Texts{}", k.div_ceil(PER_MODULE)));
        }
    }

    let mut tally = Tally::new();
    for k in 1..=trees {
        let mut r = Random::of(seed, 2, k);
        let (tree, baseline) = loop {
            let (bytes, baseline) = tree_bytes(&mut r, &source);
            // long ones would take most of the time
            if bytes.len() + baseline.len() > 3000 {
                continue;
            }
            break (Tree::read(bytes), baseline);
        };
        write_tree(&mut modules, &mut r, &format!("tree{k}"), &tree, &baseline, &mut tally);
        if k % PER_MODULE == 0 || k == trees {
            modules.end(format!("Trees{}", k.div_ceil(PER_MODULE)));
        }
    }

    let root: String = modules.names.iter().map(|name| format!("pub mod {name}\n")).collect();
    std::fs::write(format!("{out}/Pieces.antt"), BYTES).expect("a module is written");
    std::fs::write(format!("{out}/Lib.antt"), root).expect("the list of modules is written");
    std::fs::write(cases, &modules.cases).expect("the cases are written");

    std::println!("made: {texts} texts, {with_function} with a function; {trees} trees");
    let mut line = String::new();
    for call in ["refusal", "scan", "check", "update", "report"] {
        let numbers: Vec<String> = tally.iter().filter(|t| t.0 .0 == call).map(|t| format!("{} x {}", t.0 .1, t.1)).collect();
        let _ = write!(line, " {call} {};", numbers.join(", "));
    }
    std::println!("numbers answered:{}", line.trim_end_matches(';'));
}
