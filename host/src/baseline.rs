//! The baseline file: read whole, and replaced whole.

use crate::Refusal;
use std::ffi::OsString;
use std::fs::{self, File, OpenOptions};
use std::io::{self, ErrorKind, Read, Write};
use std::path::{Path, PathBuf};
use std::process;

const MAX_BASELINE: u64 = 33_554_432;

/// Only a missing file is an empty baseline: one that cannot be read might have held anything.
pub fn read(file: &Path) -> Result<Vec<u8>, Refusal> {
    let cannot = |e| format!("complexity: the baseline {} cannot be read: {e}", file.display());
    let mut bytes = Vec::new();
    match File::open(file) {
        Ok(open) => open.take(MAX_BASELINE + 1).read_to_end(&mut bytes).map_err(cannot)?,
        Err(e) if e.kind() == ErrorKind::NotFound => return Ok(bytes),
        Err(e) => return Err(cannot(e)),
    };
    if bytes.len() as u64 > MAX_BASELINE {
        return Err(format!("complexity: the baseline {} is over the limit of {MAX_BASELINE} bytes", file.display()));
    }
    Ok(bytes)
}

/// The new bytes stand in a file beside the old one, synced, before its name passes to them: whenever this is stopped, the old file or
/// the new one stands whole.
pub fn replace(file: &Path, bytes: &[u8]) -> io::Result<()> {
    let target = target(file)?;
    let folder = match target.parent() {
        Some(parent) if !parent.as_os_str().is_empty() => parent,
        _ => Path::new("."),
    };
    let (beside, new) = create_beside(&target)?;
    let written = fill(new, &target, bytes).and_then(|()| fs::rename(&beside, &target));
    if let Err(e) = written {
        // The first error is the one to tell.
        let _ = fs::remove_file(&beside);
        return Err(e);
    }
    File::open(folder)?.sync_all()
}

/// Where the bytes go: through links, as writing in place would, and only where the file itself may be written.
fn target(file: &Path) -> io::Result<PathBuf> {
    match fs::symlink_metadata(file) {
        Err(e) if e.kind() == ErrorKind::NotFound => Ok(file.to_owned()),
        Err(e) => Err(e),
        Ok(_) => {
            let target = fs::canonicalize(file)?;
            if !fs::metadata(&target)?.is_file() {
                return Err(io::Error::other("not a regular file"));
            }
            OpenOptions::new().write(true).open(&target)?;
            Ok(target)
        }
    }
}

fn create_beside(target: &Path) -> io::Result<(PathBuf, File)> {
    let name = target.file_name().ok_or_else(|| io::Error::other("not a file name"))?;
    let mut attempt = 0;
    loop {
        let mut beside = OsString::from(".");
        beside.push(name);
        beside.push(format!(".{}.{attempt}", process::id()));
        let beside = target.with_file_name(beside);
        match OpenOptions::new().write(true).create_new(true).open(&beside) {
            // Left behind by a process that was killed and had the same number.
            Err(e) if e.kind() == ErrorKind::AlreadyExists && attempt < 100 => attempt += 1,
            Err(e) => return Err(e),
            Ok(new) => return Ok((beside, new)),
        }
    }
}

fn fill(mut new: File, target: &Path, bytes: &[u8]) -> io::Result<()> {
    if let Ok(old) = fs::metadata(target) {
        new.set_permissions(old.permissions())?;
    }
    new.write_all(bytes)?;
    new.sync_all()
}
