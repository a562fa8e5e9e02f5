//! Makes the original a module and links the proved library.

use std::path::{Path, PathBuf};
use std::process::{exit, Command};

fn main() {
    let root = Path::new(env!("CARGO_MANIFEST_DIR")).parent().expect("the project").to_path_buf();
    let out = PathBuf::from(std::env::var("OUT_DIR").expect("cargo's folder"));
    let source =
        std::env::var("COMPLEXITY_RS").map_or_else(|_| root.join("../shared/docs/src/src/bin/complexity.rs"), PathBuf::from);
    let library = root.join("target/staticlib/libcomplexity.a");
    let script = root.join("differential/oracle");
    for path in [&source, &library, &script] {
        std::println!("cargo:rerun-if-changed={}", path.display());
    }
    std::println!("cargo:rerun-if-env-changed=COMPLEXITY_RS");
    std::println!("cargo:rustc-env=ORIGINAL={}", source.display());

    let made = out.join("oracle.rs");
    let done = Command::new(&script).arg(&source).arg(&made).status().expect("differential/oracle runs");
    if !done.success() {
        exit(2);
    }
    let module = format!("#[allow(dead_code)]\n#[path = {:?}]\nmod oracle;\n", made.display().to_string());
    std::fs::write(out.join("module.rs"), module).expect("the module is written");

    assert!(library.is_file(), "{} is missing: run `tools/staticlib` first", library.display());
    std::println!("cargo:rustc-link-search=native={}", library.parent().expect("a folder").display());
    std::println!("cargo:rustc-link-lib=static=complexity");
}
