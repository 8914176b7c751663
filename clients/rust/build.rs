//! Links `libpx.a`, from the folder that `PX_LIB_DIR` names, else from `../lib`.

use std::env;
use std::path::{Path, PathBuf};

fn main() {
    println!("cargo::rerun-if-env-changed=PX_LIB_DIR");
    let beside = Path::new(env!("CARGO_MANIFEST_DIR")).join("../lib");
    let folder = env::var_os("PX_LIB_DIR").map_or(beside, PathBuf::from);
    let archive = folder.join("libpx.a");
    println!("cargo::rerun-if-changed={}", archive.display());
    if !archive.is_file() {
        println!(
            "cargo::error={} is missing: make it with clients/build.sh, or name its folder in PX_LIB_DIR",
            archive.display()
        );
        return;
    }
    println!("cargo::rustc-link-search=native={}", folder.display());
    println!("cargo::rustc-link-lib=static=px");
}
