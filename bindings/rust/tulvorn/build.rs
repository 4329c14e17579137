//! Links the library for C, which is the first of these:
//!
//! 1. the archive libtulvorn.a in the folder that `TULVORN_ARCHIVES` names, where bindings/build.py left it,
//! 2. what pkg-config finds as `tulvorn`, with the interface of this crate, if `make install` or a package left it there,
//! 3. an archive that bindings/build.py builds here, if the crate is part of Tulvorn's repository and the kit's command
//!    `rt` is installed. It has no proof, and takes some two minutes.
//!
//! On docs.rs nothing is linked.

use std::env;
use std::path::Path;
use std::process::{Command, Stdio, exit};

/// The number of the header that `src/ffi.rs` restates.
const INTERFACE: &str = "2";

const MISSING: &str = "the library of Tulvorn is not found. Set TULVORN_ARCHIVES to the folder in which \
    bindings/build.py left it, or install it so that `pkg-config tulvorn` finds it, or install the kit's command `rt`";

fn main() {
    println!("cargo::rerun-if-env-changed=TULVORN_ARCHIVES");
    println!("cargo::rerun-if-env-changed=PKG_CONFIG_PATH");
    if env::var_os("DOCS_RS").is_some() {
        return;
    }
    if let Ok(folder) = env::var("TULVORN_ARCHIVES") {
        link_archive(&folder);
    } else if !link_installed() && !link_built() {
        println!("cargo::error={MISSING}");
        exit(1);
    }
}

/// Links the archive in a folder.
fn link_archive(folder: &str) {
    let archive = Path::new(folder).join("libtulvorn.a");
    if !archive.is_file() {
        println!("cargo::error={} is not a file", archive.display());
        exit(1);
    }
    println!("cargo::rustc-link-search=native={folder}");
    println!("cargo::rustc-link-lib=static=tulvorn");
    println!("cargo::rerun-if-changed={}", archive.display());
}

/// What pkg-config prints of the library, or nothing if it fails.
fn installed(flags: &[&str]) -> Option<String> {
    let ran = Command::new("pkg-config").args(flags).arg("tulvorn").stderr(Stdio::null()).output().ok()?;
    ran.status.success().then(|| String::from_utf8_lossy(&ran.stdout).trim().to_owned())
}

/// Links the library that is installed, and returns whether there is one of this interface.
fn link_installed() -> bool {
    if installed(&["--variable=interface"]).as_deref() != Some(INTERFACE) {
        return false;
    }
    if let Some(folder) = installed(&["--variable=libdir"]) {
        println!("cargo::rustc-link-search=native={folder}");
    }
    println!("cargo::rustc-link-lib=dylib=tulvorn");
    true
}

/// Builds the archive in the repository, links it, and returns whether that was possible.
fn link_built() -> bool {
    let script = Path::new(env!("CARGO_MANIFEST_DIR")).join("../../build.py");
    let folder = env::var("OUT_DIR").unwrap_or_default();
    let can_build = script.is_file() && Command::new("rt").arg("version").output().is_ok();
    if can_build {
        let ran = Command::new("python3").arg(&script).args(["--unproved", &folder]).status();
        if !ran.is_ok_and(|status| status.success()) {
            println!("cargo::error={} failed", script.display());
            exit(1);
        }
        link_archive(&folder);
    }
    can_build
}
