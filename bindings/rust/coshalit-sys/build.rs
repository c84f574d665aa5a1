//! Finds the static library, and links it: in the folder that COSHALIT_LIB_DIR names, else in the one that pkg-config knows, else beside
//! these sources, in an unpacked release or a checkout in which `rt lib` made it.

use std::path::PathBuf;
use std::process::Command;
use std::{env, fs};

const LIBRARY: &str = "libcoshalit_c.a";

/// Where a release and a checkout have the library, from this package's folder.
const PLACES: [&str; 2] = ["../../../lib", "../../../crates/coshalit_c/out"];

fn folder_of_pkg_config() -> Option<PathBuf> {
    let said = Command::new("pkg-config").args(["--variable=libdir", "coshalit"]).output().ok()?;
    let folder = String::from_utf8(said.stdout).ok()?;
    said.status.success().then(|| PathBuf::from(folder.trim_end()))
}

fn folder_of_library() -> Option<PathBuf> {
    if let Some(folder) = env::var_os("COSHALIT_LIB_DIR") {
        return Some(folder.into());
    }
    let package = PathBuf::from(env::var_os("CARGO_MANIFEST_DIR")?);
    let beside = PLACES.iter().map(|place| package.join(place));
    folder_of_pkg_config().into_iter().chain(beside).find(|folder| folder.join(LIBRARY).is_file())
}

fn main() {
    println!("cargo::rerun-if-env-changed=COSHALIT_LIB_DIR");
    println!("cargo::rerun-if-env-changed=PKG_CONFIG_PATH");
    let found = folder_of_library().and_then(|folder| fs::canonicalize(folder).ok()).filter(|folder| folder.join(LIBRARY).is_file());
    let Some(folder) = found else {
        println!("cargo::error=no {LIBRARY} is found: name its folder by COSHALIT_LIB_DIR");
        return;
    };
    println!("cargo::rerun-if-changed={}", folder.join(LIBRARY).display());
    println!("cargo::rustc-link-search=native={}", folder.display());
    println!("cargo::rustc-link-lib=static=coshalit_c");
}
