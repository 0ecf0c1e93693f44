//! Links the archive `libmmdb.a`: from the folder that the variable MMDB_LIBRARY names, else from `release` of the clone that
//! this crate stands in, else from where pkg-config says.

use std::env;
use std::path::PathBuf;
use std::process::Command;

const ARCHIVE: &str = "libmmdb.a";

fn main() {
    println!("cargo:rerun-if-changed=build.rs");
    println!("cargo:rerun-if-env-changed=MMDB_LIBRARY");
    println!("cargo:rerun-if-env-changed=PKG_CONFIG_PATH");
    let folder = named_folder()
        .or_else(folder_of_the_clone)
        .or_else(installed_folder)
        .expect(
        "mmdb: the variable MMDB_LIBRARY names no folder, the crate stands in no clone, and pkg-config knows no mmdb",
    );
    let archive = folder.join(ARCHIVE);
    assert!(archive.is_file(), "mmdb: there is no {}", archive.display());
    println!("cargo:rerun-if-changed={}", archive.display());
    println!("cargo:rustc-link-search=native={}", folder.display());
    println!("cargo:rustc-link-lib=static=mmdb");
}

/// The folder that the variable names. A relative one begins at the folder in which cargo was called, which the shell tells by
/// PWD, or else at the folder of this crate.
fn named_folder() -> Option<PathBuf> {
    let folder = PathBuf::from(env::var_os("MMDB_LIBRARY").filter(|folder| !folder.is_empty())?);
    if folder.is_relative() {
        println!("cargo:rerun-if-env-changed=PWD");
        let called = env::var_os("PWD").map(|called| PathBuf::from(called).join(&folder));
        return called.filter(|called| called.join(ARCHIVE).is_file()).or(Some(folder));
    }
    Some(folder)
}

/// The folder of the library in a clone, where this crate is `bindings/rust`.
fn folder_of_the_clone() -> Option<PathBuf> {
    let folder = PathBuf::from(env::var_os("CARGO_MANIFEST_DIR")?).join("../../release");
    folder.join(ARCHIVE).is_file().then_some(folder)
}

/// The folder of the library that is installed. pkg-config tells it even where the linker would look there anyway.
fn installed_folder() -> Option<PathBuf> {
    let mut asked = Command::new("pkg-config");
    asked
        .args(["--libs-only-L", "mmdb"])
        .env("PKG_CONFIG_ALLOW_SYSTEM_LIBS", "1");
    let answer = asked.output().ok().filter(|answer| answer.status.success())?;
    let words = String::from_utf8(answer.stdout).ok()?;
    words.trim().strip_prefix("-L").map(PathBuf::from)
}
