//! The original's source and the real files at hand: those of its folder and those of this one.

use std::path::{Path, PathBuf};

fn collect(folder: &Path, found: &mut Vec<PathBuf>) {
    for entry in std::fs::read_dir(folder).into_iter().flatten().flatten() {
        let path = entry.path();
        if path.is_dir() {
            if !path.ends_with("target") {
                collect(&path, found);
            }
        } else if path.extension().is_some_and(|e| e == "rs") {
            found.push(path);
        }
    }
}

pub struct Sources {
    pub original: String,
    pub files: Vec<String>,
}

/// `None` where there is no original.
pub fn read(root: &Path) -> Option<Sources> {
    let original = env!("ORIGINAL");
    let mut paths = Vec::new();
    collect(&root.join("differential"), &mut paths);
    collect(Path::new(original).parent()?.parent()?, &mut paths);
    paths.sort();
    let files = paths.iter().filter_map(|p| std::fs::read_to_string(p).ok()).filter(|text| !text.is_empty());
    Some(Sources { original: std::fs::read_to_string(original).ok()?, files: files.collect() })
}
