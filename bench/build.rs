//! Links the reader that `tools/staticlib bench_reader` makes. SERDUZHAP_LIB names the folder of
//! libbench_reader.a, if it is another than target/staticlib; a relative path starts at the root of the
//! repository.

use std::env;
use std::path::Path;

fn main() {
    println!("cargo::rerun-if-changed=build.rs");
    println!("cargo::rerun-if-env-changed=SERDUZHAP_LIB");
    let given = env::var_os("SERDUZHAP_LIB").unwrap_or("target/staticlib".into());
    let folder = Path::new(env!("CARGO_MANIFEST_DIR")).join("..").join(given);
    println!("cargo::rerun-if-changed={}", folder.join("libbench_reader.a").display());
    println!("cargo::rustc-link-search=native={}", folder.display());
    println!("cargo::rustc-link-lib=static=bench_reader");
}
