//! Names the generator's files, as they are, as modules of this crate: the folder is known only when building.

use std::{env, fs, path::Path};

fn main() {
    println!("cargo:rerun-if-env-changed=PKTBAFFLE_SRC");
    let here = env::var("CARGO_MANIFEST_DIR").unwrap();
    let root = env::var("PKTBAFFLE_SRC").unwrap_or_else(|_| format!("{here}/../../../shared/docs/src"));
    let folder = Path::new(&root).join("pktbaffle/src");
    let folder = fs::canonicalize(&folder).unwrap_or_else(|e| panic!("{}: {e}; set PKTBAFFLE_SRC", folder.display()));
    let mut modules = String::new();
    for name in ["ast", "ebpf", "ebpf_codegen"] {
        let file = folder.join(format!("{name}.rs"));
        println!("cargo:rerun-if-changed={}", file.display());
        modules += &format!("#[allow(dead_code)]\n#[path = {file:?}]\nmod {name};\n");
    }
    fs::write(Path::new(&env::var("OUT_DIR").unwrap()).join("rust.rs"), modules).unwrap();
}
