//! Links the static library that `make lib` writes.
use std::env;
use std::path::{Path, PathBuf};

fn main() {
    println!("cargo:rerun-if-changed=build.rs");
    println!("cargo:rerun-if-env-changed=PENGUINJUG_LIB");
    let folder = folder();
    let library = folder.join("libpenguinjug.a");
    println!("cargo:rerun-if-changed={}", library.display());
    if !library.is_file() {
        panic!(
            "{} is not there: run `make lib`, or set PENGUINJUG_LIB to the folder that holds libpenguinjug.a.",
            library.display()
        );
    }
    println!("cargo:rustc-link-search=native={}", folder.display());
    println!("cargo:rustc-link-lib=static=penguinjug");
}

/// The folder of the library: PENGUINJUG_LIB, or where `make lib` writes it.
fn folder() -> PathBuf {
    match env::var_os("PENGUINJUG_LIB") {
        Some(folder) => PathBuf::from(folder),
        None => Path::new(&env::var_os("CARGO_MANIFEST_DIR").expect("cargo sets CARGO_MANIFEST_DIR")).join("../target/lib"),
    }
}
