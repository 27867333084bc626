//! Finds the archive of the proved library, or makes it. Its folder is `OXENHUSH_LIB_DIR` (an absolute path) if that is set; else
//! `target/staticlib` of the repository, the crate's parent folder, where `tools/archive` writes it.

use std::ffi::OsStr;
use std::path::{Path, PathBuf};
use std::process::{exit, Command};
use std::time::SystemTime;
use std::{env, fs, io};

/// Ends the build with a plain message.
fn stop(message: &str) -> ! {
    eprintln!("oxenhush: {message}");
    exit(1)
}

/// The archive holds machine code for one processor and one system.
fn ask_for_target() {
    let of = |name| env::var(name).unwrap_or_default();
    if of("CARGO_CFG_TARGET_ARCH") != "x86_64" || of("CARGO_CFG_TARGET_OS") != "linux" {
        stop(
            "the archive of the proved library is for Linux programs on x86-64, and this build is for another target. \
             The script `rust/test` shows how to build and run for x86-64 on another processor.",
        );
    }
}

/// The sources of the proved crates: `crates.txt`, and of each crate the folders `src`, `specs` and `proofs`. The folder `out`, in which `rt`
/// keeps its work, is none of them. Without the list of crates there is the file alone.
fn sources(root: &Path) -> Vec<PathBuf> {
    let mut all = vec![root.join("crates.txt")];
    for library in fs::read_dir(root.join("crates")).into_iter().flatten().flatten() {
        let folders = ["src", "specs", "proofs"].map(|name| library.path().join(name));
        all.extend(folders.into_iter().filter(|folder| folder.is_dir()));
    }
    all
}

/// Whether a source of the proved crates, a file or one in a folder, was changed at that time or later.
fn changed_since(source: &Path, time: SystemTime) -> io::Result<bool> {
    if source.is_dir() {
        for inner in fs::read_dir(source)? {
            if changed_since(&inner?.path(), time)? {
                return Ok(true);
            }
        }
        return Ok(false);
    }
    let counts = matches!(source.extension().and_then(OsStr::to_str), Some("rt" | "antt" | "txt"));
    Ok(counts && source.metadata()?.modified()? >= time)
}

/// Whether the archive is there and newer than every source. Where that can't be seen it is not.
fn is_fresh(archive: &Path, sources: &[PathBuf]) -> bool {
    match archive.metadata().and_then(|m| m.modified()) {
        Ok(time) => sources.iter().all(|source| matches!(changed_since(source, time), Ok(false))),
        Err(_) => false,
    }
}

/// Proves the library and everything below it, as far as that is not yet done, and writes the archive. `rt` reads all that it kept of earlier
/// proofs each time, so it is not asked where nothing changed.
fn make_archive(root: &Path) -> PathBuf {
    let folder = root.join("target").join("staticlib");
    let sources = sources(root);
    for source in &sources {
        println!("cargo:rerun-if-changed={}", source.display());
    }
    if is_fresh(&folder.join("libexports.a"), &sources) {
        return folder;
    }
    match Command::new(root.join("tools").join("archive")).status() {
        Ok(status) if status.success() => {}
        Ok(status) if status.code() == Some(127) => stop(
            "there is no `rt` to make the archive with. Install the Rattle kit (README.md), \
             or set OXENHUSH_LIB_DIR to a folder that has libexports.a.",
        ),
        Ok(status) => stop(&format!("`tools/archive` in {} failed: {status}", root.display())),
        Err(error) => stop(&format!("`tools/archive` could not be run: {error}")),
    }
    folder
}

fn main() {
    println!("cargo:rerun-if-env-changed=OXENHUSH_LIB_DIR");
    println!("cargo:rerun-if-changed=build.rs");
    let crate_folder = PathBuf::from(env::var_os("CARGO_MANIFEST_DIR").expect("cargo sets it"));
    let root = crate_folder.parent().expect("the crate stands in the repository");
    let folder = match env::var_os("OXENHUSH_LIB_DIR") {
        Some(folder) => PathBuf::from(folder),
        None => {
            ask_for_target();
            make_archive(root)
        }
    };
    let archive = folder.join("libexports.a");
    if !archive.exists() {
        println!("cargo:warning={} is not there: programs will not link", archive.display());
    }
    println!("cargo:rerun-if-changed={}", archive.display());
    println!("cargo:rustc-link-search=native={}", folder.display());
    println!("cargo:rustc-link-lib=static=exports");
}
