//! Links the proved library, which `tools/staticlib` writes. COMPLEXITY_LIBRARY names another folder that holds it.

use std::env;
use std::path::PathBuf;

fn main() {
    let here = PathBuf::from(env::var_os("CARGO_MANIFEST_DIR").expect("cargo names the package's folder"));
    let folder = env::var_os("COMPLEXITY_LIBRARY").map_or(here.join("../target/staticlib"), PathBuf::from);
    let library = folder.join("libcomplexity.a");
    assert!(library.is_file(), "{} is missing: run `tools/staticlib` first", library.display());
    println!("cargo:rerun-if-env-changed=COMPLEXITY_LIBRARY");
    println!("cargo:rerun-if-changed={}", library.display());
    println!("cargo:rustc-link-search=native={}", folder.display());
    println!("cargo:rustc-link-lib=static=complexity");
}
