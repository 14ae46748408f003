//! Finds the static library: in the folders of `LOSKEBRI_LIBS`, which are separated by colons, else by pkg-config. Each holds
//! `libloskebri.a`, as `bindings/install` puts it there.

use std::env;
use std::path::{Path, PathBuf};
use std::process::{self, Command};

/// The archive's file name.
const ARCHIVE: &str = "libloskebri.a";

fn main() {
    for name in ["LOSKEBRI_LIBS", "PKG_CONFIG", "PKG_CONFIG_PATH"] {
        println!("cargo:rerun-if-env-changed={name}");
    }
    let folders = match env::var("LOSKEBRI_LIBS") {
        Ok(listed) if !listed.is_empty() => listed.split(':').map(PathBuf::from).collect(),
        _ => by_pkg_config(),
    };
    let Some(folder) = folders.iter().find(|folder| folder.join(ARCHIVE).is_file()) else {
        eprintln!(
            "loskebri: no {ARCHIVE} was found: run `bindings/install PREFIX`, and set PKG_CONFIG_PATH to PREFIX/lib/pkgconfig or \
             LOSKEBRI_LIBS to PREFIX/lib"
        );
        process::exit(1);
    };
    link(folder);
}

/// Links the archive of this folder, and anew where it has changed.
fn link(folder: &Path) {
    println!("cargo:rerun-if-changed={}", folder.join(ARCHIVE).display());
    println!("cargo:rustc-link-search=native={}", folder.display());
    println!("cargo:rustc-link-lib=static=loskebri");
}

/// The folder that pkg-config names, if it is there and knows the library.
fn by_pkg_config() -> Vec<PathBuf> {
    let program = env::var("PKG_CONFIG").unwrap_or_else(|_| "pkg-config".to_owned());
    let told = Command::new(program)
        .args(["--variable=libdir", "loskebri"])
        .output();
    match told {
        Ok(told) if told.status.success() => {
            vec![PathBuf::from(String::from_utf8_lossy(&told.stdout).trim())]
        }
        _ => Vec::new(),
    }
}
