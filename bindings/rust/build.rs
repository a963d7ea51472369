//! Links the proved library libbitbus.a, out of the folder that BITBUS_LIB names, else out of target/staticlib; and takes
//! the constants of include/bitbus.h over, so that sizes and offsets stand in one place.

use std::path::{Path, PathBuf};
use std::{env, fs, process};

fn main() {
    let package = PathBuf::from(variable("CARGO_MANIFEST_DIR"));
    constants(&package.join("../../include/bitbus.h"));
    println!("cargo:rerun-if-env-changed=BITBUS_LIB");
    let folder = env::var_os("BITBUS_LIB").map_or(package.join("../../target/staticlib"), PathBuf::from);
    let library = folder.join("libbitbus.a");
    if !library.is_file() {
        stop(&format!(
            "{} is not there: make it by `./library`, or name its folder in the environment variable BITBUS_LIB",
            library.display()
        ));
    }
    println!("cargo:rerun-if-changed={}", library.display());
    println!("cargo:rustc-link-search=native={}", folder.display());
    println!("cargo:rustc-link-lib=static=bitbus");
}

/// Writes each `BITBUS_NAME = number` of the header as a constant NAME.
fn constants(header: &Path) {
    println!("cargo:rerun-if-changed={}", header.display());
    let text = fs::read_to_string(header).unwrap_or_else(|error| stop(&format!("{}: {error}", header.display())));
    let mut constants = String::new();
    for part in text.split("BITBUS_").skip(1) {
        let Some((name, value)) = part.split_once(" = ") else { continue };
        let number: String = value.chars().take_while(char::is_ascii_alphanumeric).collect();
        if name.chars().all(|c| c.is_ascii_uppercase() || c == '_') {
            constants += &format!("pub const {name}: usize = {number};\n");
        }
    }
    let out = PathBuf::from(variable("OUT_DIR")).join("header.rs");
    fs::write(&out, constants).unwrap_or_else(|error| stop(&format!("{}: {error}", out.display())));
}

fn variable(name: &str) -> String {
    env::var(name).unwrap_or_else(|_| stop(&format!("cargo does not give {name}")))
}

fn stop(why: &str) -> ! {
    eprintln!("{why}");
    process::exit(1)
}
