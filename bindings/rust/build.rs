//! Links the proved library, which `rt lib` in crates/bridge makes. `GELVATOS_LIB` names another folder that has it.

use std::env;
use std::path::PathBuf;

fn main() {
    let home = PathBuf::from(env::var_os("CARGO_MANIFEST_DIR").expect("set by cargo"));
    let folder = env::var_os("GELVATOS_LIB")
        .map_or_else(|| home.join("../../crates/bridge/out"), PathBuf::from);
    let library = folder.join("libbridge.a");
    assert!(
        library.exists(),
        "{} is missing: run `rt lib` in crates/bridge",
        library.display()
    );
    println!("cargo::rerun-if-env-changed=GELVATOS_LIB");
    println!("cargo::rerun-if-changed={}", library.display());
    println!("cargo::rustc-link-search=native={}", folder.display());
    println!("cargo::rustc-link-lib=static=bridge");
}
