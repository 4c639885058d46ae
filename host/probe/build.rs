//! Links the archive of the crate `probe`: beside the checkout's `target/`, or where `SANGUEKO_ARCHIVES` says.

use std::{env, path::PathBuf};

fn main() {
    println!("cargo::rerun-if-env-changed=SANGUEKO_ARCHIVES");
    let folder = env::var_os("SANGUEKO_ARCHIVES").map_or_else(
        || PathBuf::from(env::var_os("CARGO_MANIFEST_DIR").unwrap()).join("../../target/staticlib"),
        PathBuf::from,
    );
    let archive = folder.join("libprobe.a");
    assert!(
        archive.is_file(),
        "{} is missing: run `tools/archives` at the repository's top first",
        archive.display()
    );
    println!("cargo::rerun-if-changed={}", archive.display());
    println!("cargo::rustc-link-search=native={}", folder.display());
    println!("cargo::rustc-link-lib=static=probe");
}
