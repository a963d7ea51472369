//! Where the static library stands: target/staticlib of the project, or the folder that BITBUS_LIB names.

use std::{env, path::PathBuf};

fn main() {
    let own =
        PathBuf::from(env::var("CARGO_MANIFEST_DIR").expect("cargo names the package's folder"));
    let folder = match env::var_os("BITBUS_LIB") {
        Some(folder) => PathBuf::from(folder),
        None => own.join("../target/staticlib"),
    };
    let library = folder.join("libbitbus.a");
    println!("cargo:rerun-if-env-changed=BITBUS_LIB");
    println!("cargo:rerun-if-changed={}", library.display());
    assert!(
        library.exists(),
        "{} is missing: make it with `./library`",
        library.display()
    );
    println!("cargo:rustc-link-search=native={}", folder.display());
    println!("cargo:rustc-link-lib=static=bitbus");
}
