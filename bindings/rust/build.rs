//! Finds libpst.a: in the folder that PST_LIB_DIR names, else in built/ of the repository, else in lib/ below the PREFIX of its
//! ./install.

use std::env;
use std::path::PathBuf;

fn main() {
    println!("cargo:rerun-if-env-changed=PST_LIB_DIR");
    let own = PathBuf::from(env::var_os("CARGO_MANIFEST_DIR").expect("cargo sets it"));
    let folder = match env::var_os("PST_LIB_DIR") {
        Some(folder) => PathBuf::from(folder),
        None if own.ends_with("bindings/rust") => own.join("../../built"),
        None => own.join("../../../lib"),
    };
    let library = folder.join("libpst.a");
    println!("cargo:rerun-if-changed={}", library.display());
    println!("cargo:rustc-link-search=native={}", folder.display());
    println!("cargo:rustc-link-lib=static=pst");
}
