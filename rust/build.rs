//! Links the proved archive, libcrumbvessel.a, from the folder that CRUMBVESSEL_LIB_DIR names or ../target.

use std::env;
use std::path::{Path, PathBuf};

fn main() {
    let here = env::var("CARGO_MANIFEST_DIR").expect("cargo names this folder");
    let folder = env::var_os("CRUMBVESSEL_LIB_DIR").map(PathBuf::from);
    let folder = folder.unwrap_or_else(|| Path::new(&here).join("../target"));
    if env::var("CARGO_CFG_TARGET_ARCH").as_deref() != Ok("x86_64") {
        println!("cargo:warning=the archive is x86-64: build with --target x86_64-unknown-linux-gnu");
    }
    let archive = folder.join("libcrumbvessel.a");
    if !archive.exists() {
        println!("cargo:warning={} is missing: `./build` makes it", archive.display());
    }
    println!("cargo:rerun-if-env-changed=CRUMBVESSEL_LIB_DIR");
    println!("cargo:rerun-if-changed={}", archive.display());
    println!("cargo:rustc-link-search=native={}", folder.display());
    println!("cargo:rustc-link-lib=static=crumbvessel");
}
