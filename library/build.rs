//! Links crates/screen/out/libscreen.a of the repository, or the one in the folder that SCREEN_LIB names.

use std::env;
use std::path::PathBuf;

fn main() {
    let folder = match env::var_os("SCREEN_LIB") {
        Some(folder) => PathBuf::from(folder),
        None => PathBuf::from(env::var_os("CARGO_MANIFEST_DIR").unwrap()).join("../crates/screen/out"),
    };
    println!("cargo:rerun-if-env-changed=SCREEN_LIB");
    println!("cargo:rerun-if-changed={}", folder.join("libscreen.a").display());
    println!("cargo:rustc-link-search=native={}", folder.display());
    println!("cargo:rustc-link-lib=static=screen");
}
