//! Links the static library that the variable LAYOUT_LIB names, as `crates/NAME/out/libNAME.a`.

use std::path::Path;

fn main() {
    println!("cargo:rerun-if-env-changed=LAYOUT_LIB");
    let Ok(library) = std::env::var("LAYOUT_LIB") else {
        println!("cargo:warning=LAYOUT_LIB names no static library: what uses this crate will not link");
        return;
    };
    let path = Path::new(&library).canonicalize().unwrap_or_else(|e| panic!("LAYOUT_LIB={library}: {e}"));
    let stem = path.file_stem().and_then(|s| s.to_str()).and_then(|s| s.strip_prefix("lib"));
    let name = stem.unwrap_or_else(|| panic!("LAYOUT_LIB={library}: not of the form libNAME.a"));
    println!("cargo:rerun-if-changed={}", path.display());
    println!("cargo:rustc-link-search=native={}", path.parent().unwrap().display());
    println!("cargo:rustc-link-lib=static={name}");
}
