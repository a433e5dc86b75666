//! Tells cargo where the static library stands.

use std::env;
use std::path::PathBuf;

/// The environment variable that names the folder of the static library.
const VARIABLE: &str = "TRACKER_LIBRARY";

fn main() {
    let folder = folder();
    let archive = folder.join("libexports.a");
    println!("cargo:rerun-if-env-changed={VARIABLE}");
    println!("cargo:rerun-if-changed={}", archive.display());
    // Only what is linked needs the library, so that it may be missing here.
    if !archive.is_file() {
        println!(
            "cargo:warning={} is missing: run `tools/build exports` in the repository's root first",
            archive.display()
        );
    }
    println!("cargo:rustc-link-search=native={}", folder.display());
    println!("cargo:rustc-link-lib=static=exports");
}

/// The folder of the static library. A relative path starts at this crate.
fn folder() -> PathBuf {
    let named = env::var_os(VARIABLE).filter(|path| !path.is_empty());
    let path = named.unwrap_or_else(|| "../../target/staticlib".into());
    let manifest = env::var_os("CARGO_MANIFEST_DIR");
    PathBuf::from(manifest.expect("cargo sets CARGO_MANIFEST_DIR")).join(path)
}
