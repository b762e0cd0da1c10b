//! Links `libshelf.a`, from the folder `SHELF_LIB_DIR` if that is set and from
//! the repository's `target/staticlib` otherwise.

use std::env;
use std::path::PathBuf;

fn main() {
    println!("cargo:rerun-if-env-changed=SHELF_LIB_DIR");
    let package = PathBuf::from(env::var_os("CARGO_MANIFEST_DIR").expect("set by cargo"));
    let folder = match env::var_os("SHELF_LIB_DIR") {
        Some(folder) => PathBuf::from(folder),
        None => package.join("../../target/staticlib"),
    };
    let archive = folder.join("libshelf.a");
    println!("cargo:rerun-if-changed={}", archive.display());
    if !archive.is_file() {
        eprintln!(
            "{} is missing: build the static library first, by host/staticlib, or name its \
             folder (an absolute path) in SHELF_LIB_DIR",
            archive.display()
        );
        std::process::exit(1);
    }
    println!("cargo:rustc-link-search=native={}", folder.display());
    println!("cargo:rustc-link-lib=static=shelf");
}
