//! Links the proved library, libcircle_median.a: from the folder that CIRCLE_MEDIAN_LIB names, a path from this crate's
//! folder if it is not absolute, or else from where `rt lib` puts it in the repository.

use std::env;
use std::path::PathBuf;

const VARIABLE: &str = "CIRCLE_MEDIAN_LIB";

fn main() {
    let here = PathBuf::from(env::var_os("CARGO_MANIFEST_DIR").expect("cargo names the crate's folder"));
    let named = env::var_os(VARIABLE).filter(|folder| !folder.is_empty());
    let folder = here.join(named.unwrap_or_else(|| "../../crates/circle_median/out".into()));
    let archive = folder.join("libcircle_median.a");

    println!("cargo::rerun-if-env-changed={VARIABLE}");
    println!("cargo::rerun-if-changed={}", archive.display());
    if archive.is_file() {
        println!("cargo::rustc-link-search=native={}", folder.display());
        println!("cargo::rustc-link-lib=static=circle_median");
    } else {
        println!(
            "cargo::error=there is no {}: run `rt lib --cpu x86-64` in crates/circle_median of the project's \
             root, or set {VARIABLE} to the folder that has libcircle_median.a",
            archive.display()
        );
    }
}
