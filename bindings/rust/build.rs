//! Links the proved library, which `rt lib` makes in crates/capi.
use std::env;
use std::path::PathBuf;

fn main() {
    println!("cargo:rerun-if-env-changed=REEFCANDOR_LIB");
    let folder = env::var_os("REEFCANDOR_LIB")
        .map_or_else(|| PathBuf::from(env!("CARGO_MANIFEST_DIR")).join("../../crates/capi/out"), PathBuf::from);
    let archive = folder.join("libcapi.a");
    println!("cargo:rerun-if-changed={}", archive.display());
    assert!(
        archive.exists(),
        "{} is not there: run `rt lib` in crates/capi, or set REEFCANDOR_LIB to the folder of libcapi.a",
        archive.display()
    );
    println!("cargo:rustc-link-search=native={}", folder.display());
    println!("cargo:rustc-link-lib=static=capi");
}
