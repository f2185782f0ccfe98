//! Links libmars.a from the folder MARS_LIB, or from the folder build/, where `dev/library` builds it.

use std::{env, path::PathBuf};

fn main() {
    println!("cargo:rerun-if-env-changed=MARS_LIB");
    let folder = env::var_os("MARS_LIB").map_or_else(
        || PathBuf::from(env!("CARGO_MANIFEST_DIR")).join("../../build"),
        PathBuf::from,
    );
    let library = folder.join("libmars.a");
    println!("cargo:rerun-if-changed={}", library.display());
    assert!(
        library.is_file(),
        "there is no {}: dev/library builds it, and MARS_LIB names another folder",
        library.display()
    );
    println!("cargo:rustc-link-search=native={}", folder.display());
    println!("cargo:rustc-link-lib=static=mars");
}
