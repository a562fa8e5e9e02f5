//! The files that the original collects, in its order: every path under a folder whose extension is `rs`, links followed.
//!
//! The original passes over what it cannot look at. Here that is a refusal, as is a link that leads back into a folder around it: the
//! original follows such a link until the system stops it.

use crate::Refusal;
use crate::tree::MAX_FILES;
use std::fs;
use std::io::{self, ErrorKind};
use std::os::unix::fs::MetadataExt;
use std::path::{Path, PathBuf};

/// Device and number, which no two folders share.
type Place = (u64, u64);

pub fn rust_files(folder: &Path) -> Result<Vec<PathBuf>, Refusal> {
    let mut files = Vec::new();
    if !fs::metadata(folder).map_err(|e| unseen(folder, &e))?.is_dir() {
        return Err(format!("complexity: {} is not a folder", folder.display()));
    }
    collect(folder, &mut Vec::new(), &mut files)?;
    Ok(files)
}

/// Names in byte order, folder by folder, so paths come component by component in byte order, as `sort` puts them.
fn collect(folder: &Path, around: &mut Vec<Place>, files: &mut Vec<PathBuf>) -> Result<(), Refusal> {
    let here = fs::metadata(folder).map(|m| (m.dev(), m.ino())).map_err(|e| unseen(folder, &e))?;
    if around.contains(&here) {
        return Err(format!("complexity: {} is a link to a folder around it, so there is no end of paths", folder.display()));
    }
    around.push(here);
    for path in entries(folder).map_err(|e| unseen(folder, &e))? {
        if is_folder(&path)? {
            collect(&path, around, files)?;
        } else if path.extension().is_some_and(|e| e == "rs") {
            if files.len() == MAX_FILES {
                return Err(format!("complexity: {} is one .rs file more than the limit of {MAX_FILES} files", path.display()));
            }
            files.push(path);
        }
    }
    around.pop();
    Ok(())
}

fn entries(folder: &Path) -> io::Result<Vec<PathBuf>> {
    let mut paths = fs::read_dir(folder)?.map(|entry| Ok(entry?.path())).collect::<io::Result<Vec<_>>>()?;
    paths.sort();
    Ok(paths)
}

/// A link to nothing is no folder; whether it is a file that cannot be read depends on its extension.
fn is_folder(path: &Path) -> Result<bool, Refusal> {
    match fs::metadata(path) {
        Ok(metadata) => Ok(metadata.is_dir()),
        Err(e) if e.kind() == ErrorKind::NotFound => Ok(false),
        Err(e) => Err(unseen(path, &e)),
    }
}

fn unseen(path: &Path, e: &io::Error) -> Refusal {
    format!("complexity: {} cannot be read: {e}", path.display())
}
