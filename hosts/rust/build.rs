//! Links the reader's archive `libsporebasket.a`, from SPOREBASKET_LIB_DIR or else from `target/host` of the repository.

use std::path::{self, Path, PathBuf};
use std::{env, process};

fn main() {
    println!("cargo:rerun-if-changed=build.rs");
    println!("cargo:rerun-if-env-changed=SPOREBASKET_LIB_DIR");
    let folder = folder();
    let archive = folder.join("libsporebasket.a");
    if !archive.is_file() {
        missing(&archive);
    }
    println!("cargo:rerun-if-changed={}", archive.display());
    println!("cargo:rustc-link-search=native={}", folder.display());
    println!("cargo:rustc-link-lib=static=sporebasket");
}

/// The folder that should have the archive, by its whole path.
fn folder() -> PathBuf {
    match env::var_os("SPOREBASKET_LIB_DIR") {
        Some(named) => path::absolute(&named).unwrap_or_else(|_| named.into()),
        None => repository().join("target").join("host"),
    }
}

/// The root of the repository: this package stands in `hosts/rust`.
fn repository() -> PathBuf {
    let package = env::var_os("CARGO_MANIFEST_DIR").map_or_else(PathBuf::new, PathBuf::from);
    package.ancestors().nth(2).map_or_else(PathBuf::new, Path::to_path_buf)
}

/// Says how to make the archive, and ends the build.
fn missing(archive: &Path) -> ! {
    eprintln!("sporebasket: {} is not there.", archive.display());
    eprintln!("Make it by `tools/host-staticlib capi` in the repository of Sporebasket,");
    eprintln!("or let SPOREBASKET_LIB_DIR name the folder that has it, by its whole path.");
    process::exit(1);
}
