//! With the feature `private`, copies the files of docs/src as they are, puts a file of src/private/ where each of them says `mod tests;`,
//! and sets `cfg(test)`. Without it, does nothing: src/lib.rs reaches docs/src by path.
//!
//! With the feature `profile_2` the copies are not quite as they are: a receiver and a sender have the figures of profile 2 (document 02,
//! 2026-11).

#[allow(dead_code)]
#[path = "../record/src/profiles.rs"]
mod profiles;

use profiles::PROFILE_2;
use std::path::{Path, PathBuf};
use std::{env, fs, io};

/// A file of docs/src, and what of src/private/ stands in for its tests.
const FILES: [(&str, &str); 6] = [
    ("l3/tsar", "nothing.rs"),
    ("l3/tsar/response", "nothing.rs"),
    ("l3/tsar/segmentation", "segmentation.rs"),
    ("link/tsar/outgoing", "nothing.rs"),
    ("link/tsar/receiver", "receiver.rs"),
    ("link/tsar/sender", "sender.rs"),
];

/// A file of docs/src, the constant in it that profiles differ in, and profile 2's figure.
const FIGURES: [(&str, &str, u64); 2] = [
    ("link/tsar/receiver", "REASSEMBLY_MS", PROFILE_2.receiver),
    ("link/tsar/sender", "SEGMENT_INTERVAL_MS", PROFILE_2.sender),
];

fn copy(from: &Path, to: &Path) -> io::Result<()> {
    println!("cargo::rerun-if-changed={}", from.display());
    fs::create_dir_all(to.parent().expect("a file has a folder"))?;
    fs::write(to, fs::read(from)?)
}

/// Gives a constant of a file another figure: the one place where it is said.
fn exchange(file: &Path, name: &str, figure: u64) -> io::Result<()> {
    let text = fs::read_to_string(file)?;
    let says = format!("const {name}: u64 = ");
    let parts: Vec<&str> = text.split(&says).collect();
    let [before, after] = parts[..] else {
        panic!("{} says {says:?} once", file.display());
    };
    let (_, rest) = after.split_once(';').expect("a constant ends");
    fs::write(file, format!("{before}{says}{figure};{rest}"))
}

fn main() -> io::Result<()> {
    println!("cargo::rerun-if-changed=build.rs");
    if env::var_os("CARGO_FEATURE_PRIVATE").is_none() {
        return Ok(());
    }
    println!("cargo::rustc-cfg=test");
    let here = PathBuf::from(env!("CARGO_MANIFEST_DIR"));
    let there = PathBuf::from(env::var_os("OUT_DIR").expect("cargo sets it"));
    let source = here.join("../../docs/src/crates/bts136/src");
    for (file, tests) in FILES {
        let name = format!("{file}.rs");
        copy(&source.join(&name), &there.join(&name))?;
        copy(
            &here.join("src/private").join(tests),
            &there.join(file).join("tests.rs"),
        )?;
    }
    if env::var_os("CARGO_FEATURE_PROFILE_2").is_some() {
        for (file, name, figure) in FIGURES {
            exchange(&there.join(format!("{file}.rs")), name, figure)?;
        }
    }
    copy(&here.join("src/modules.rs"), &there.join("modules.rs"))
}
