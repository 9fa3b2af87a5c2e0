//! Links the proved device's archive, `libcapi.a`, from `COLLECTOR_LIB_DIR` (default `../crates/capi/out`).

use std::env;
use std::path::PathBuf;

fn main() {
    let package = PathBuf::from(env::var_os("CARGO_MANIFEST_DIR").expect("cargo sets CARGO_MANIFEST_DIR"));
    let folder = env::var_os("COLLECTOR_LIB_DIR").map_or_else(|| "../crates/capi/out".into(), PathBuf::from);
    let folder = package.join(folder);
    println!("cargo::rerun-if-env-changed=COLLECTOR_LIB_DIR");
    println!("cargo::rerun-if-changed={}", folder.join("libcapi.a").display());
    println!("cargo::rustc-link-search=native={}", folder.display());
    println!("cargo::rustc-link-lib=static=capi");
}
