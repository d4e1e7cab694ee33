//! Links id Software's own code where the feature `peer` asks for it. The calls are linked by the crate
//! bsp29-sys.

fn main() {
    if std::env::var_os("CARGO_FEATURE_PEER").is_some() {
        let peer = concat!(env!("CARGO_MANIFEST_DIR"), "/../target/peer");
        println!("cargo:rustc-link-search=native={peer}");
        println!("cargo:rustc-link-lib=static=peer");
        println!("cargo:rerun-if-changed={peer}/libpeer.a");
    }
    println!("cargo:rerun-if-changed=build.rs");
}
