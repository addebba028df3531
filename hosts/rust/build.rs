//! Tells the linker where the engine's archive is: in the folder that `ATLITE_LIB_DIR` names, or where the repository's build puts it.

use std::env;
use std::path::{Path, PathBuf};

fn main() {
    println!("cargo:rerun-if-env-changed=ATLITE_LIB_DIR");
    let folder = match env::var_os("ATLITE_LIB_DIR") {
        Some(folder) => PathBuf::from(folder),
        None => {
            Path::new(&env::var_os("CARGO_MANIFEST_DIR").expect("cargo sets CARGO_MANIFEST_DIR"))
                .join("../../crates/atlite_calls/out")
        }
    };
    let archive = folder.join("libatlite_calls.a");
    println!("cargo:rerun-if-changed={}", archive.display());
    if !archive.exists() {
        panic!(
            "{} is missing: build it with `rt lib` in crates/atlite_calls, or set ATLITE_LIB_DIR",
            archive.display()
        );
    }
    println!("cargo:rustc-link-search=native={}", folder.display());
    println!("cargo:rustc-link-lib=static=atlite_calls");
}
