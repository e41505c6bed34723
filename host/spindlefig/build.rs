//! Finds the proved library, `libexport.a`, and links it: the repository's, or the one in the folder that `SPINDLEFIG_LIB` names.

use std::env;
use std::path::{Path, PathBuf};

fn library_folder() -> PathBuf {
    match env::var_os("SPINDLEFIG_LIB") {
        Some(folder) => PathBuf::from(folder),
        None => {
            let here = env::var_os("CARGO_MANIFEST_DIR").expect("cargo names the crate's folder");
            Path::new(&here).join("../../target/staticlib")
        }
    }
}

fn main() {
    println!("cargo:rerun-if-env-changed=SPINDLEFIG_LIB");
    let target = env::var("CARGO_CFG_TARGET_ARCH").expect("cargo names the target");
    if target != "x86_64" && env::var_os("SPINDLEFIG_LIB").is_none() {
        panic!("the relay's library is compiled for x86-64 only, and the target is {target}");
    }
    let folder = library_folder();
    let archive = folder.join("libexport.a");
    println!("cargo:rerun-if-changed={}", archive.display());
    if !archive.is_file() {
        panic!(
            "{} is not there: run host/build in the repository first",
            archive.display()
        );
    }
    println!("cargo:rustc-link-search=native={}", folder.display());
    println!("cargo:rustc-link-lib=static=export");
}
