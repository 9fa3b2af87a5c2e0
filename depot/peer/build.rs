//! Links the archive that has the C interface: libcapi.a in COLLECTOR_LIB_DIR, or in ../../crates/capi/out.

use std::path::PathBuf;

fn main() {
    println!("cargo:rerun-if-env-changed=COLLECTOR_LIB_DIR");
    if std::env::var_os("CARGO_FEATURE_WRONG").is_some() {
        return;
    }
    let folder = std::env::var_os("COLLECTOR_LIB_DIR").map_or("../../crates/capi/out".into(), PathBuf::from);
    let archive = folder.join("libcapi.a");
    assert!(archive.exists(), "no {} (COLLECTOR_LIB_DIR names its folder)", archive.display());
    println!("cargo:rerun-if-changed={}", archive.display());
    println!("cargo:rustc-link-search=native={}", folder.display());
    println!("cargo:rustc-link-lib=static=capi");
}
