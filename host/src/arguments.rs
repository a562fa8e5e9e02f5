//! The command line. The first word without an option is the mode; unlike the original, a second one is refused, so that a misspelt option
//! is not ignored.

use crate::Refusal;
use std::ffi::OsString;
use std::path::PathBuf;

const USAGE: &str = "usage: complexity [-C DIR] [--baseline FILE] [--report|--check|--update]";
const BASELINE: &str = "tools/complexity-baseline.tsv";

#[derive(Clone, Copy, PartialEq, Eq)]
pub enum Mode {
    Report,
    Check,
    Update,
}

pub struct Arguments {
    pub mode: Mode,
    pub root: Option<PathBuf>,
    /// Relative to the root.
    pub baseline: PathBuf,
}

pub fn parse(mut words: impl Iterator<Item = OsString>) -> Result<Arguments, Refusal> {
    let (mut mode, mut root, mut baseline) = (None, None, None);
    while let Some(word) = words.next() {
        match word.to_str() {
            Some("-C") => once(&mut root, words.next().map(PathBuf::from))?,
            Some("--baseline") => once(&mut baseline, words.next().map(PathBuf::from))?,
            Some("--report") => once(&mut mode, Some(Mode::Report))?,
            Some("--check") => once(&mut mode, Some(Mode::Check))?,
            Some("--update") => once(&mut mode, Some(Mode::Update))?,
            _ => return Err(USAGE.into()),
        }
    }
    Ok(Arguments { mode: mode.unwrap_or(Mode::Report), root, baseline: baseline.unwrap_or_else(|| BASELINE.into()) })
}

fn once<T>(place: &mut Option<T>, value: Option<T>) -> Result<(), Refusal> {
    if place.is_some() || value.is_none() {
        return Err(USAGE.into());
    }
    *place = value;
    Ok(())
}
