//! The complexity gate as a command: `complexity [--report|--check|--update]`, from a project's root.
//!
//! Everything that decides is in the proved calls of libcomplexity.a. This program finds the files, lends the buffers, prints what the
//! calls wrote, and replaces the baseline. What it cannot look at, it says on standard error and exits with 2: a gate must not pass
//! because it did not look.

mod arguments;
mod baseline;
mod calls;
mod tree;
mod walk;

use arguments::{Arguments, Mode};
use std::io::{self, Write};
use std::path::Path;
use std::process::ExitCode;
use tree::Tree;

/// A sentence for standard error; the exit status is then 2.
type Refusal = String;

fn main() -> ExitCode {
    let answer = arguments::parse(std::env::args_os().skip(1)).and_then(|arguments| run(&arguments));
    match answer {
        Ok(status) => status,
        Err(sentence) => {
            // Nothing is left to do where standard error is closed too; the exit status still says it.
            let _ = writeln!(io::stderr(), "{sentence}");
            ExitCode::from(2)
        }
    }
}

fn run(arguments: &Arguments) -> Result<ExitCode, Refusal> {
    if let Some(root) = &arguments.root {
        std::env::set_current_dir(root).map_err(|e| format!("complexity: cannot enter {}: {e}", root.display()))?;
    }
    let files = walk::rust_files(Path::new("src"))?;
    if files.is_empty() {
        warn("src/ holds no .rs file");
    }
    let tree = tree::pack(&files)?;
    match arguments.mode {
        Mode::Report => report(&tree),
        Mode::Check => check(&tree, &arguments.baseline),
        Mode::Update => update(&tree, &arguments.baseline),
    }
}

fn report(tree: &Tree) -> Result<ExitCode, Refusal> {
    print(&calls::report(tree)?)?;
    Ok(ExitCode::SUCCESS)
}

fn check(tree: &Tree, file: &Path) -> Result<ExitCode, Refusal> {
    let accepted = baseline::read(file)?;
    if std::str::from_utf8(&accepted).is_err() {
        warn(&format!("{} is not UTF-8 and counts as empty", file.display()));
    }
    let checked = calls::check(tree, &accepted, file)?;
    print(&checked.listing)?;
    Ok(if checked.regressions == 0 { ExitCode::SUCCESS } else { ExitCode::FAILURE })
}

fn update(tree: &Tree, file: &Path) -> Result<ExitCode, Refusal> {
    let updated = calls::update(tree)?;
    baseline::replace(file, &updated.listing).map_err(|e| format!("could not write {}: {e}", file.display()))?;
    print(format!("{}: {} functions recorded\n", file.display(), updated.recorded).as_bytes())?;
    Ok(ExitCode::SUCCESS)
}

fn warn(sentence: &str) {
    let _ = writeln!(io::stderr(), "complexity: warning: {sentence}");
}

/// A listing that did not arrive is no verdict.
fn print(listing: &[u8]) -> Result<(), Refusal> {
    let mut out = io::stdout().lock();
    out.write_all(listing).and_then(|()| out.flush()).map_err(|e| format!("complexity: cannot print the listing: {e}"))
}
