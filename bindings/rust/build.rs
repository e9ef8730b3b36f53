//! Finds libflcol.

use std::env;
use std::path::PathBuf;
use std::process::Command;

/// The folder that `pkg-config` names, if it knows the library.
fn installed() -> Option<PathBuf> {
    let output = Command::new("pkg-config").args(["--variable=libdir", "flcol"]).output().ok()?;
    let folder = String::from_utf8(output.stdout).ok()?;
    (output.status.success() && !folder.trim().is_empty()).then(|| PathBuf::from(folder.trim()))
}

/// The folder into which `./library` of the repository puts it.
fn in_repository() -> PathBuf {
    PathBuf::from(env!("CARGO_MANIFEST_DIR")).join("../../out/library/lib")
}

fn main() {
    let named = env::var_os("FLCOL_LIB_DIR").map(PathBuf::from);
    let folder = named.or_else(installed).unwrap_or_else(in_repository);
    let kind = if env::var_os("CARGO_FEATURE_DYNAMIC").is_some() { "dylib" } else { "static" };
    if !folder.join("libflcol.a").exists() && !folder.join("libflcol.so").exists() {
        println!("cargo::warning=there is no libflcol in {}: ./library of the repository makes it", folder.display());
    }
    println!("cargo::rerun-if-env-changed=FLCOL_LIB_DIR");
    println!("cargo::rerun-if-changed={}", folder.display());
    println!("cargo::rustc-link-search=native={}", folder.display());
    println!("cargo::rustc-link-lib={kind}=flcol");
}
