//! Links libhost.a, from the folder that LTA_ARCHIVE_DIR names or from target/staticlib.

use std::path::PathBuf;

fn main() {
    println!("cargo:rerun-if-env-changed=LTA_ARCHIVE_DIR");
    // A relative folder is relative to the crate, wherever cargo was started.
    let crate_folder = PathBuf::from(std::env::var("CARGO_MANIFEST_DIR").expect("set by cargo"));
    let named = std::env::var("LTA_ARCHIVE_DIR").unwrap_or("../target/staticlib".into());
    let folder = crate_folder.join(named);
    let library = folder.join("libhost.a");
    println!("cargo:rerun-if-changed={}", library.display());
    if !library.is_file() {
        println!("cargo:warning=no library at {}; make writes it", library.display());
    }
    println!("cargo:rustc-link-search=native={}", folder.display());
    // Not bundled: a program links the library in its state at that time.
    println!("cargo:rustc-link-lib=static:-bundle=host");
}
