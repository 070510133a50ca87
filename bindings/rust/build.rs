//! Says where the archive is: the folder in BROMAVELUTH_LIB, else target/staticlib, where `tools/archive` writes it.

use std::{env, path::Path, process};

fn main() {
    println!("cargo:rerun-if-env-changed=BROMAVELUTH_LIB");
    let here = env::var("CARGO_MANIFEST_DIR").unwrap();
    let folder = env::var("BROMAVELUTH_LIB").unwrap_or_else(|_| format!("{here}/../../target/staticlib"));
    println!("cargo:rerun-if-changed={folder}/libbromaveluth.a");
    if !Path::new(&folder).join("libbromaveluth.a").is_file() {
        eprintln!("bromaveluth: there is no libbromaveluth.a in {folder}");
        eprintln!("bromaveluth: `tools/archive`, at the repository's root, proves it and writes it to target/staticlib;");
        eprintln!("bromaveluth: BROMAVELUTH_LIB names another folder");
        process::exit(1);
    }
    println!("cargo:rustc-link-search=native={folder}");
}
