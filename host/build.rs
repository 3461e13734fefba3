//! Links libhingerota.a, which `tools/build library` writes. HINGEROTA_LIB names another folder that has it; where neither is there, it is the
//! library that pkg-config finds.

use std::env;
use std::path::{Path, PathBuf};
use std::process::Command;

const ARCHIVE: &str = "libhingerota.a";

/// The folder of an installed library.
fn installed() -> Option<PathBuf> {
    let found = Command::new("pkg-config").args(["--variable=libdir", "hingerota"]).output().ok()?;
    let folder = PathBuf::from(String::from_utf8(found.stdout).ok()?.trim());
    folder.join(ARCHIVE).exists().then_some(folder)
}

/// What the toolchain left in the library of the logic that proved it: as many digits as `rt version` prints.
fn logic(archive: &Path) -> Option<String> {
    const NOTE: &[u8] = b"rattle logic=";
    let bytes = std::fs::read(archive).ok()?;
    let at = bytes.windows(NOTE.len()).position(|window| window == NOTE)? + NOTE.len();
    String::from_utf8(bytes.get(at..at + 16)?.to_vec()).ok().filter(|number| number.bytes().all(|byte| byte.is_ascii_hexdigit()))
}

fn main() {
    let host = PathBuf::from(env::var("CARGO_MANIFEST_DIR").unwrap());
    let written = host.join("../target/staticlib");
    let folder = match env::var("HINGEROTA_LIB") {
        Ok(named) => PathBuf::from(named),
        Err(_) if written.join(ARCHIVE).exists() => written,
        Err(_) => installed().unwrap_or(written),
    };
    let archive = folder.join(ARCHIVE);
    println!("cargo:rerun-if-env-changed=HINGEROTA_LIB");
    println!("cargo:rerun-if-changed={}", archive.display());
    println!("cargo:rustc-link-search=native={}", folder.display());
    println!("cargo:rustc-link-lib=static=hingerota");
    println!("cargo:rustc-env=HINGEROTA_LOGIC={}", logic(&archive).unwrap_or("unknown".to_string()));
    // For programs over this crate that have parts in C.
    println!("cargo:include={}", host.join("include").display());
    println!("cargo:lib={}", folder.display());
}
