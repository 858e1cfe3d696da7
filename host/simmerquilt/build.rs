//! Has the proved library built for the machine at hand and tells cargo to link it. That proves the crates it is made of,
//! so it is done again only where one of them changed.
//!
//! SIMMERQUILT_ARCHIVE names an archive to link instead, made before or elsewhere.
use std::env;
use std::ffi::OsStr;
use std::fs;
use std::path::{Path, PathBuf};
use std::process::Command;

const LIBRARY: &str = "simmerquilt";

fn main() {
    let root = folder("CARGO_MANIFEST_DIR").join("../..");
    let out = folder("OUT_DIR");
    // A copy of our own, since the kit makes anew what lies in its own folders.
    let archive = out.join(format!("lib{LIBRARY}.a"));

    println!("cargo:rerun-if-env-changed=SIMMERQUILT_ARCHIVE");
    match env::var_os("SIMMERQUILT_ARCHIVE") {
        Some(made) => take(&made, &archive),
        None => build(&root, &archive),
    }
    println!("cargo:rustc-link-search=native={}", out.display());
    println!("cargo:rustc-link-lib=static={LIBRARY}");
}

fn folder(variable: &str) -> PathBuf {
    PathBuf::from(env::var_os(variable).expect("cargo sets it"))
}

fn take(made: &OsStr, archive: &Path) {
    println!("cargo:rerun-if-changed={}", Path::new(made).display());
    if let Err(error) = fs::copy(made, archive) {
        panic!("SIMMERQUILT_ARCHIVE, {}: {error}", Path::new(made).display());
    }
}

fn build(root: &Path, archive: &Path) {
    for watched in ["crates.txt", "host/native-build"] {
        println!("cargo:rerun-if-changed={}", root.join(watched).display());
    }
    // Not a crate's out/, in which the kit writes whenever it checks.
    for entry in fs::read_dir(root.join("crates")).expect("the crates are there") {
        let entry = entry.expect("the crates can be listed").path();
        for part in ["src", "specs", "proofs"].map(|part| entry.join(part)) {
            if part.is_dir() {
                println!("cargo:rerun-if-changed={}", part.display());
            }
        }
    }
    // The script builds for the machine that it runs on.
    assert_eq!(env::var("HOST"), env::var("TARGET"), "the proved library is built for this machine alone");
    let status = Command::new("sh")
        .arg("host/native-build")
        .args([OsStr::new(LIBRARY), archive.as_os_str()])
        .current_dir(root)
        .status();
    match status {
        Ok(status) if status.success() => {}
        Ok(status) => panic!("host/native-build: {status}"),
        Err(error) => panic!("host/native-build: {error}"),
    }
}
