//! Finds the static library and links it as `libbsp29.a`. It writes into OUT_DIR alone and proves nothing.
//!
//! With BSP29_LIBRARY set, the library is that file; a relative path is taken from the folder two above
//! this crate's own, which is the repository's root. Else it is the one that `rt lib` has made in crates/ffi
//! of the repository, which must not be older than what it is proved from.

use std::env;
use std::fs;
use std::path::{Path, PathBuf};
use std::process::exit;
use std::time::SystemTime;

fn main() {
    println!("cargo:rerun-if-changed=build.rs");
    println!("cargo:rerun-if-env-changed=BSP29_LIBRARY");
    if env::var_os("CARGO_FEATURE_LINK").is_none() {
        return;
    }
    let own =
        PathBuf::from(env::var_os("CARGO_MANIFEST_DIR").expect("cargo names the crate's folder"));
    let made = PathBuf::from(env::var_os("OUT_DIR").expect("cargo names OUT_DIR"));
    let root = own.join("../..");
    let library = match env::var_os("BSP29_LIBRARY") {
        // an absolute path stays as it is
        Some(path) if !path.is_empty() => root.join(path),
        _ => of_repository(&root),
    };
    println!("cargo:rerun-if-changed={}", library.display());
    // under a name of its own: systems have another library called ffi
    if let Err(error) = fs::copy(&library, made.join("libbsp29.a")) {
        stop(&format!("the static library {}: {error}", library.display()));
    }
    println!("cargo:rustc-link-search=native={}", made.display());
    println!("cargo:rustc-link-lib=static=bsp29");
    // for the build scripts of crates that compile C: DEP_BSP29_INCLUDE
    println!("cargo:include={}", root.join("include").display());
}

/// The library that the repository has made of the crates as they are.
fn of_repository(root: &Path) -> PathBuf {
    let library = root.join("crates/ffi/out/libffi.a");
    let (crates, list) = (root.join("crates"), root.join("crates.txt"));
    println!("cargo:rerun-if-changed={}", list.display());
    let Ok(time) = fs::metadata(&library).and_then(|data| data.modified()) else {
        stop("the static library is not made yet");
    };
    for (part, name) in
        folders(&crates).iter().flat_map(|c| ["src", "specs", "proofs"].map(|p| (c, p)))
    {
        let folder = part.join(name);
        // not the whole of `crates`: beside these lies what `rt` keeps for its next check
        if folder.is_dir() {
            println!("cargo:rerun-if-changed={}", folder.display());
        }
        if newer(&folder, time) {
            stop(&format!("{} is newer than the static library", folder.display()));
        }
    }
    if newer(&list, time) {
        stop(&format!("{} is newer than the static library", list.display()));
    }
    library
}

/// What lies in a folder; nothing where there is none.
fn folders(folder: &Path) -> Vec<PathBuf> {
    let entries = fs::read_dir(folder).into_iter().flatten();
    entries.filter_map(|entry| entry.ok().map(|entry| entry.path())).collect()
}

/// Whether a file, or one in a folder, was changed after this time.
fn newer(path: &Path, time: SystemTime) -> bool {
    match fs::metadata(path) {
        Ok(data) if data.is_dir() => folders(path).iter().any(|part| newer(part, time)),
        Ok(data) => data.modified().map_or(true, |changed| changed > time),
        Err(_) => false,
    }
}

fn stop(why: &str) -> ! {
    eprintln!("bsp29-sys: {why}");
    eprintln!("bsp29-sys: run `rt lib` in crates/ffi of the repository, or set BSP29_LIBRARY to the path of the");
    eprintln!("bsp29-sys: library if it is made elsewhere (rust/bsp29-sys/README.md)");
    exit(1)
}
