//! Links the static library that `rt lib` leaves in crates/console_c.

use std::env;
use std::path::PathBuf;

/// The library's folder, from this crate's.
const FOLDER: &str = "../../crates/console_c/out";
const ARCHIVE: &str = "libconsole_c.a";

fn main() {
    let crate_folder = PathBuf::from(env::var_os("CARGO_MANIFEST_DIR").expect("cargo names the crate's folder"));
    let folder = crate_folder.join(FOLDER);
    let archive = folder.join(ARCHIVE);
    println!("cargo::rerun-if-changed={}", archive.display());
    println!("cargo::rerun-if-changed=build.rs");
    if !archive.is_file() {
        println!("cargo::error=crates/console_c/out/{ARCHIVE} is not there: run `rt lib` in crates/console_c");
        return;
    }
    // It needs memcpy and memset besides, which are in every Rust program.
    println!("cargo::rustc-link-search=native={}", folder.display());
    println!("cargo::rustc-link-lib=static=console_c");
}
