//! Finds the proved archive: in the folder that CAPACITY_ARCHIVE_DIR names, else in the repository's target/staticlib.
use std::env;
use std::path::{Path, PathBuf};

const NAME: &str = "libcapacity.a";

fn folder() -> PathBuf {
    match env::var_os("CAPACITY_ARCHIVE_DIR") {
        Some(named) => named.into(),
        None => Path::new(&set_by_cargo("CARGO_MANIFEST_DIR")).join("../../target/staticlib"),
    }
}

fn set_by_cargo(name: &str) -> String {
    env::var(name).expect("cargo sets it")
}

fn main() {
    let folder = folder();
    let archive = folder.join(NAME);
    println!("cargo::rerun-if-env-changed=CAPACITY_ARCHIVE_DIR");
    println!("cargo::rerun-if-changed={}", archive.display());
    let processor = set_by_cargo("CARGO_CFG_TARGET_ARCH");
    if processor != "x86_64" {
        println!("cargo::error={NAME} holds code for x86-64, and this build is for {processor}");
    } else if !archive.is_file() {
        println!(
            "cargo::error=there is no {}; make it with 'tools/archive', or name its folder in CAPACITY_ARCHIVE_DIR",
            archive.display()
        );
    } else {
        println!("cargo::rustc-link-search=native={}", folder.display());
        println!("cargo::rustc-link-lib=static=capacity");
    }
}
