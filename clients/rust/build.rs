//! Finds the library: in the folder that CAMP_LIB_DIR names, or where `clients/build` puts it.

use std::env;
use std::path::PathBuf;

fn main() {
    let folder = match env::var_os("CAMP_LIB_DIR") {
        Some(folder) => PathBuf::from(folder),
        None => PathBuf::from(env!("CARGO_MANIFEST_DIR")).join("../../out/clients"),
    };
    let library = folder.join("libcamp.a");
    if !library.exists() {
        println!(
            "cargo:warning={} is not there: run clients/build",
            library.display()
        );
    }
    println!("cargo:rustc-link-search=native={}", folder.display());
    println!("cargo:rustc-link-lib=static=camp");
    println!("cargo:rerun-if-env-changed=CAMP_LIB_DIR");
    println!("cargo:rerun-if-changed={}", library.display());
}
