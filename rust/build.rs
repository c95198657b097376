//! Links the library that `tools/staticlib serduzhap_c` makes. SERDUZHAP_LIB names the folder of
//! libserduzhap_c.a, if it is another than target/staticlib; a relative path starts at the folder around this
//! crate's, which is the root of the repository.

use std::env;
use std::path::Path;

fn main() {
    println!("cargo::rerun-if-changed=build.rs");
    println!("cargo::rerun-if-env-changed=SERDUZHAP_LIB");
    let given = env::var_os("SERDUZHAP_LIB").unwrap_or("target/staticlib".into());
    let folder = Path::new(env!("CARGO_MANIFEST_DIR")).join("..").join(given);
    println!("cargo::rerun-if-changed={}", folder.join("libserduzhap_c.a").display());
    println!("cargo::rustc-link-search=native={}", folder.display());
    println!("cargo::rustc-link-lib=static=serduzhap_c");
}
