//! Links librelkvanu.a: from the folder that RELKVANU_LIB names, otherwise from `build` in this repository, where
//! `make` leaves it, otherwise from the folder that pkg-config finds.
use std::env;
use std::path::{Path, PathBuf};
use std::process::Command;

fn installed() -> Option<PathBuf> {
    let told = Command::new("pkg-config").args(["--variable=libdir", "relkvanu"]).output().ok()?;
    let text = String::from_utf8(told.stdout).ok()?;
    told.status.success().then(|| PathBuf::from(text.trim()))
}

fn folder() -> Option<PathBuf> {
    let built = Path::new(env!("CARGO_MANIFEST_DIR")).join("../../../build");
    let named = env::var_os("RELKVANU_LIB").map(PathBuf::from);
    let own = built.join("librelkvanu.a").is_file().then_some(built);
    named.or(own).or_else(installed).filter(|folder| folder.join("librelkvanu.a").is_file())
}

fn main() {
    println!("cargo:rerun-if-env-changed=RELKVANU_LIB");
    let Some(folder) = folder() else {
        eprintln!("librelkvanu.a is not found: run make, or set RELKVANU_LIB to its folder");
        std::process::exit(1);
    };
    println!("cargo:rerun-if-changed={}", folder.join("librelkvanu.a").display());
    println!("cargo:rustc-link-search=native={}", folder.display());
    if env::var_os("CARGO_FEATURE_STORE").is_some() {
        println!("cargo:rustc-link-lib=static=relkvanu-store");
        println!("cargo:rustc-link-lib=sqlite3");
        println!("cargo:rustc-link-lib=z");
    }
    println!("cargo:rustc-link-lib=static=relkvanu");
}
