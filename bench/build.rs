//! With the feature `capi`: links libcapi.a from the folder CAPI_DIR, or from ../crates/capi/out.

use std::env;
use std::path::PathBuf;

fn main() {
    println!("cargo:rerun-if-changed=build.rs");
    println!("cargo:rerun-if-env-changed=CAPI_DIR");
    if env::var_os("CARGO_FEATURE_CAPI").is_none() {
        return;
    }
    let crate_dir = PathBuf::from(env::var_os("CARGO_MANIFEST_DIR").unwrap());
    let folder = match env::var_os("CAPI_DIR") {
        Some(dir) => env::current_dir().unwrap().join(dir),
        None => crate_dir.join("../crates/capi/out"),
    };
    let library = folder.join("libcapi.a");
    if !library.is_file() {
        eprintln!(
            "{} is missing: run `rt lib` in crates/capi, or set CAPI_DIR",
            library.display()
        );
        std::process::exit(1);
    }
    println!("cargo:rerun-if-changed={}", library.display());
    println!("cargo:rustc-link-search=native={}", folder.display());
    println!("cargo:rustc-link-lib=static:-bundle=capi");
}
