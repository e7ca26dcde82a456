//! The files of the repository, for tests that read them.
use std::fs;
use std::path::{Path, PathBuf};

pub fn root() -> PathBuf {
    Path::new(env!("CARGO_MANIFEST_DIR")).join("..").canonicalize().unwrap()
}

/// Every file below a folder, in the order of their paths, without what `rt` makes in a crate's `out`.
pub fn files(folder: &Path) -> Vec<PathBuf> {
    let mut all = vec![];
    for path in fs::read_dir(folder).unwrap().map(|entry| entry.unwrap().path()) {
        if path.is_dir() {
            if path.file_name().is_none_or(|name| name != "out") {
                all.extend(files(&path));
            }
        } else {
            all.push(path);
        }
    }
    all.sort();
    all
}
