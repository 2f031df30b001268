//! Links librecline.a, which lies in the folder RECLINE_ARCHIVE_DIR, or in dist/ of this checkout.

use std::env;
use std::path::PathBuf;

fn main() {
    let folder = match env::var_os("RECLINE_ARCHIVE_DIR") {
        Some(folder) => PathBuf::from(folder),
        None => PathBuf::from(env::var_os("CARGO_MANIFEST_DIR").expect("cargo says where the crate is")).join("../../dist"),
    };
    println!("cargo:rerun-if-env-changed=RECLINE_ARCHIVE_DIR");
    println!("cargo:rerun-if-changed={}", folder.join("librecline.a").display());
    println!("cargo:rustc-link-search=native={}", folder.display());
    println!("cargo:rustc-link-lib=static=recline");
}
