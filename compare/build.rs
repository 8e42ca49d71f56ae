//! With the feature `proved`, links the proved functions that `tools/staticlib` has built.

fn main() {
    println!("cargo:rerun-if-changed=build.rs");
    if std::env::var_os("CARGO_FEATURE_PROVED").is_none() {
        return;
    }
    let folder = std::env::var("CARGO_MANIFEST_DIR").expect("cargo sets it");
    println!("cargo:rustc-link-search=native={folder}/../target/staticlib");
    for library in ["station", "comparison"] {
        println!("cargo:rustc-link-lib=static={library}");
        println!("cargo:rerun-if-changed=../target/staticlib/lib{library}.a");
    }
}
