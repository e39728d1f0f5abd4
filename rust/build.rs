//! Finds the C library: in the folder that `CLICKPULL_LIB_DIR` names, and else where pkg-config says.
//!
//! The archive `libclickpull.a` is linked where it is there, and else the shared library. A library that pkg-config finds has to have the crate's
//! major and minor version. The folder that is named isn't tested.
use std::env;
use std::path::PathBuf;
use std::process::Command;

/// The variable that names the folder of the library.
const FOLDER: &str = "CLICKPULL_LIB_DIR";

fn main() {
    println!("cargo:rerun-if-changed=build.rs");
    println!("cargo:rerun-if-env-changed={FOLDER}");
    println!("cargo:rerun-if-env-changed=PKG_CONFIG_PATH");
    let folder = match env::var_os(FOLDER) {
        Some(it) => PathBuf::from(it),
        None => asked_of_pkg_config(),
    };
    let archive = folder.join("libclickpull.a");
    let kind = if archive.exists() { "static" } else { "dylib" };
    println!("cargo:rerun-if-changed={}", archive.display());
    println!("cargo:rustc-link-search=native={}", folder.display());
    println!("cargo:rustc-link-lib={kind}=clickpull");
}

/// The folder of the installed library.
///
/// # Panics
///
/// If pkg-config knows no library of the crate's major and minor version.
fn asked_of_pkg_config() -> PathBuf {
    let (major, minor) = (env!("CARGO_PKG_VERSION_MAJOR"), env!("CARGO_PKG_VERSION_MINOR"));
    let next: u64 = 1 + minor.parse::<u64>().expect("a minor version is a number");
    let (least, end) = (format!("clickpull >= {major}.{minor}"), format!("clickpull < {major}.{next}"));
    pkg_config(&["--print-errors", &least, &end]);
    PathBuf::from(pkg_config(&["--variable=libdir", "clickpull"]).trim())
}

/// What pkg-config prints.
fn pkg_config(words: &[&str]) -> String {
    let wanted = concat!("clickpull ", env!("CARGO_PKG_VERSION_MAJOR"), ".", env!("CARGO_PKG_VERSION_MINOR"));
    let advice = format!("install the library (packaging/install), or set {FOLDER} to the folder with libclickpull.a");
    match Command::new("pkg-config").args(words).output() {
        Ok(it) if it.status.success() => String::from_utf8_lossy(&it.stdout).into_owned(),
        Ok(it) => panic!("pkg-config does not find {wanted}, which the crate needs: {advice}\n{}", String::from_utf8_lossy(&it.stderr)),
        Err(it) => panic!("pkg-config does not run ({it}): {advice}"),
    }
}
