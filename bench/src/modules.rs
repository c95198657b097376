//! The tree texts that bench/modules.py has made of Python's own modules.

use std::fs;
use std::path::{Path, PathBuf};

/// A module's name and its text.
pub type Module = (String, Vec<u8>);

/// The modules of one of the folders `as_read` and `accepted`, by name; none where there is no such folder.
pub fn modules(kind: &str) -> Vec<Module> {
    let Ok(entries) = fs::read_dir(folder().join(kind)) else { return Vec::new() };
    let paths = entries.map(|entry| entry.expect("a folder that can be read").path());
    let mut found: Vec<Module> = paths.map(|path| module(&path)).collect();
    found.sort();
    found
}

/// Where run.sh has them made.
fn folder() -> PathBuf {
    Path::new(env!("CARGO_MANIFEST_DIR")).join("../target/bench_modules")
}

fn module(path: &Path) -> Module {
    let name = path.file_name().expect("a file").to_string_lossy().into_owned();
    (name, fs::read(path).expect("a file that can be read"))
}
