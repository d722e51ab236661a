//! Links the proved library, if any operation of it is to be called. Its archive is for x86-64: built
//! for another machine, nothing is linked, and the library is served (`src/served.rs`), unless an
//! archive for that machine is named, to be timed (`tools/native-archive`).

use std::env;
use std::path::{Path, PathBuf};

const FOLDER: &str = "TANVELIS_LIB";
/// Set where the folder has an archive for this machine, whichever that is.
const NATIVE: &str = "TANVELIS_NATIVE";
const OPERATIONS: [&str; 8] =
    ["check", "find", "normalise", "shred", "rebuild", "cell", "box", "judge"];

fn main() {
    println!("cargo:rerun-if-changed=build.rs");
    println!("cargo:rerun-if-env-changed={FOLDER}");
    println!("cargo:rerun-if-env-changed={NATIVE}");
    let feature = |op: &str| format!("CARGO_FEATURE_{}", op.to_uppercase());
    let asked: Vec<_> =
        OPERATIONS.into_iter().filter(|op| env::var_os(feature(op)).is_some()).collect();
    let all = OPERATIONS.map(|op| format!("\"{op}\"")).join(", ");
    println!("cargo:rustc-check-cfg=cfg(linked, values(none(), {all}))");
    let machine = env::var("CARGO_CFG_TARGET_ARCH").expect("cargo names the machine");
    let is_linked = machine == "x86_64" || env::var_os(NATIVE).is_some();
    if asked.is_empty() || !is_linked {
        return;
    }
    let package = env::var_os("CARGO_MANIFEST_DIR").expect("cargo names the package's folder");
    let folder = match env::var_os(FOLDER) {
        Some(folder) => Path::new(&package).join(folder),
        None => PathBuf::from(package).join("../target/staticlib"),
    };
    let archive = folder.join("libregister.a");
    println!("cargo:rerun-if-changed={}", archive.display());
    assert!(archive.is_file(), "no {}: set {FOLDER} to the archive's folder", archive.display());
    println!("cargo:rustc-link-search=native={}", folder.display());
    println!("cargo:rustc-link-lib=static=register");
    println!("cargo:rustc-cfg=linked");
    asked.iter().for_each(|op| println!("cargo:rustc-cfg=linked=\"{op}\""));
}
