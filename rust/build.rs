//! Where the proved library is: the folder `STATION_LIB_DIR`, or else the repository's own, where `tests/libraries` puts it. It
//! is for x86-64.
use std::env::var_os;
use std::path::{Path, PathBuf};

fn main() {
    let told = var_os("STATION_LIB_DIR").filter(|folder| !folder.is_empty());
    let folder = told.map_or_else(own_folder, PathBuf::from);
    let library = folder.join("libstation.a");
    println!("cargo:rerun-if-env-changed=STATION_LIB_DIR");
    println!("cargo:rerun-if-changed=build.rs");
    println!("cargo:rerun-if-changed={}", library.display());
    // a warning and no error, since checking and documenting need no library
    if !library.exists() {
        println!("cargo:warning=there is no {}, and without it nothing links", library.display());
        println!("cargo:warning=run `tests/libraries` in the repository, or set STATION_LIB_DIR to the folder of libstation.a");
    }
    println!("cargo:rustc-link-search=native={}", folder.display());
    println!("cargo:rustc-link-lib=static=station");
}

fn own_folder() -> PathBuf {
    let package = var_os("CARGO_MANIFEST_DIR").expect("cargo says where the package is");
    Path::new(&package).join("../target/staticlib")
}
