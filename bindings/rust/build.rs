//! Tells where the archive `libexports.a` stands: in the folder that ZAMGULEKT_LIB_DIR names, or
//! where `bindings/archive` puts it.

use std::{env, path::Path, process};

fn main() {
    let root = env::var_os("CARGO_MANIFEST_DIR").expect("Cargo names the crate's folder");
    let folder = env::var_os("ZAMGULEKT_LIB_DIR").unwrap_or("../../crates/exports/out".into());
    let folder = Path::new(&root).join(folder);
    let archive = folder.join("libexports.a");
    if !archive.is_file() {
        eprintln!(
            "{} is not there: make it by bindings/archive,",
            archive.display()
        );
        eprintln!("or name its folder in the environment variable ZAMGULEKT_LIB_DIR");
        process::exit(1);
    }
    println!("cargo:rustc-link-search=native={}", folder.display());
    println!("cargo:rerun-if-changed={}", archive.display());
    println!("cargo:rerun-if-env-changed=ZAMGULEKT_LIB_DIR");
}
