//! Links the static library: the one beside this file, as a release has it, or that which `tools/bindings` leaves in
//! `bindings/out`.

use std::env;
use std::path::PathBuf;

const LIBRARY: &str = "libvast.a";

fn main() {
    println!("cargo:rerun-if-env-changed=VAST_LIBRARY_FOLDER");
    let beside = PathBuf::from(env::var_os("CARGO_MANIFEST_DIR").unwrap_or_default());
    let folder = match env::var_os("VAST_LIBRARY_FOLDER") {
        Some(folder) => PathBuf::from(folder),
        None if beside.join(LIBRARY).is_file() => beside,
        None => beside.join("../out"),
    };
    let library = folder.join(LIBRARY);
    if !library.is_file() {
        println!(
            "cargo:warning={} is not there: run tools/bindings, or name its folder in VAST_LIBRARY_FOLDER",
            library.display()
        );
    }
    println!("cargo:rerun-if-changed={}", library.display());
    println!("cargo:rustc-link-search=native={}", folder.display());
    println!("cargo:rustc-link-lib=static=vast");
}
