//! Copies four files of the Rust original, unchanged, to where the crate includes them. ORIGINAL_SRC names
//! the folder that they come from, the original's src/; a relative path starts at the root of the repository.

use std::path::{Path, PathBuf};
use std::{env, fs, io};

const FILES: [&str; 4] = ["builtins.rs", "parser/ast.rs", "semantic/mod.rs", "semantic/scope.rs"];

/// semantic/mod.rs has a module `typecheck` beside it. The original's own is left out: this stands there.
const TYPECHECK: &str = "pub use crate::stand_ins::typecheck_program;\n";

fn main() {
    println!("cargo::rerun-if-changed=build.rs");
    println!("cargo::rerun-if-env-changed=ORIGINAL_SRC");
    let Some(given) = env::var_os("ORIGINAL_SRC") else {
        println!("cargo::error=ORIGINAL_SRC is not set: it names the src/ folder of the Rust original, see NOTICE");
        return;
    };
    let original = Path::new(env!("CARGO_MANIFEST_DIR")).join("../..").join(given);
    let out = PathBuf::from(env::var_os("OUT_DIR").expect("set by cargo"));
    for file in FILES {
        let from = original.join(file);
        println!("cargo::rerun-if-changed={}", from.display());
        if let Err(error) = fs::read(&from).and_then(|bytes| write(&out.join(file), &bytes)) {
            println!("cargo::error={}: {error}", from.display());
        }
    }
    write(&out.join("semantic/typecheck.rs"), TYPECHECK.as_bytes()).expect("OUT_DIR can be written");
}

/// Writes a file, and the folders that it stands in.
fn write(file: &Path, bytes: &[u8]) -> io::Result<()> {
    fs::create_dir_all(file.parent().expect("a file below OUT_DIR"))?;
    fs::write(file, bytes)
}
