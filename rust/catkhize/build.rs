//! Says where the proved core's library is: in the folder that CATKHIZE_LIB_DIR names, or in target/staticlib of the repository, where
//! `tools/staticlib` puts it. It is libcatkhize.a, or where that is not there, libcatkhize.so.

use std::path::{Path, PathBuf};
use std::{env, process};

fn main() {
    println!("cargo::rerun-if-env-changed=CATKHIZE_LIB_DIR");
    let folder = env::var_os("CATKHIZE_LIB_DIR").map_or_else(
        || Path::new(env!("CARGO_MANIFEST_DIR")).join("../../target/staticlib"),
        PathBuf::from,
    );
    println!("cargo::rerun-if-changed={}", folder.display());
    for (kind, file) in [("static", "libcatkhize.a"), ("dylib", "libcatkhize.so")] {
        let library = folder.join(file);
        if library.exists() {
            println!("cargo::rerun-if-changed={}", library.display());
            println!("cargo::rustc-link-search=native={}", folder.display());
            println!("cargo::rustc-link-lib={kind}=catkhize");
            return;
        }
    }
    println!(
        "cargo::error=no libcatkhize.a in {}: build it with `tools/staticlib` (README, 'How firmware links it'), or set CATKHIZE_LIB_DIR",
        folder.display()
    );
    process::exit(1);
}
