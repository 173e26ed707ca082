// SPDX-License-Identifier: MIT
//! Links libphkarotuk.a: from the folder that PHKAROTUK_LIB names (what `lib/build FOLDER` writes), else from where pkg-config finds it,
//! else from target/lib of the repository if the crate stands in it.

use std::{
    env,
    path::{Path, PathBuf},
    process::{self, Command},
};

/// The folder of the archive that pkg-config knows.
fn by_pkg_config() -> Option<PathBuf> {
    let said = Command::new("pkg-config").args(["--variable=folder", "phkarotuk"]).output().ok()?;
    let folder = String::from_utf8(said.stdout).ok()?;
    (said.status.success() && !folder.trim().is_empty()).then(|| PathBuf::from(folder.trim()))
}

/// Where `lib/build` writes without a word.
fn in_the_repository() -> Option<PathBuf> {
    let folder = Path::new(&env::var_os("CARGO_MANIFEST_DIR")?).join("../../target/lib");
    folder.join("libphkarotuk.a").is_file().then_some(folder)
}

fn stop(why: &str) -> ! {
    eprintln!("phkarotuk: {why}.");
    eprintln!("Run 'lib/build FOLDER' in the repository of Phkarotuk, and set PHKAROTUK_LIB=FOLDER (the whole path), or PKG_CONFIG_PATH.");
    process::exit(1)
}

fn main() {
    println!("cargo:rerun-if-changed=build.rs");
    println!("cargo:rerun-if-env-changed=PHKAROTUK_LIB");
    println!("cargo:rerun-if-env-changed=PKG_CONFIG_PATH");
    let named = env::var_os("PHKAROTUK_LIB").map(PathBuf::from);
    let folder = match named.or_else(by_pkg_config).or_else(in_the_repository) {
        Some(folder) => folder,
        None => stop("libphkarotuk.a was not found: PHKAROTUK_LIB is not set, and pkg-config does not know phkarotuk"),
    };
    let archive = folder.join("libphkarotuk.a");
    if !archive.is_file() {
        stop(&format!("there is no {}", archive.display()));
    }
    println!("cargo:rerun-if-changed={}", archive.display());
    println!("cargo:rustc-link-search=native={}", folder.display());
    println!("cargo:rustc-link-lib=static=phkarotuk");
}
