//! Links the library's archive: beside the checkout's `target/`, or where `SANGUEKO_ARCHIVES` says.

use std::{env, path::PathBuf};

fn main() {
    println!("cargo::rerun-if-env-changed=SANGUEKO_ARCHIVES");
    let folder = env::var_os("SANGUEKO_ARCHIVES").map_or_else(
        || PathBuf::from(env::var_os("CARGO_MANIFEST_DIR").unwrap()).join("../../target/staticlib"),
        PathBuf::from,
    );
    let archive = folder.join("libvolume.a");
    println!("cargo::rerun-if-changed={}", archive.display());
    if !archive.is_file() {
        println!(
            "cargo::error={} is missing: `tools/archives`, run at the repository's top, makes it",
            archive.display()
        );
        return;
    }
    println!("cargo::rustc-link-search=native={}", folder.display());
    println!("cargo::rustc-link-lib=static=volume");
}
