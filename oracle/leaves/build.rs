//! Links the static library of the crate ffi_math, which `rt lib` leaves in crates/ffi_math/out, or the one
//! in the folder that ORACLE_LIBRARY names.

fn main() {
    let usual = concat!(env!("CARGO_MANIFEST_DIR"), "/../../crates/ffi_math/out").to_string();
    let folder = std::env::var("ORACLE_LIBRARY").unwrap_or(usual);
    println!("cargo:rustc-link-search=native={folder}");
    println!("cargo:rustc-link-lib=static=ffi_math");
    println!("cargo:rerun-if-changed={folder}/libffi_math.a");
    println!("cargo:rerun-if-env-changed=ORACLE_LIBRARY");
    println!("cargo:rerun-if-changed=build.rs");
}
