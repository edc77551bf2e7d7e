//! Finds the static library: in ACPI_LIB_DIR, else where tests/library writes it.
use std::path::PathBuf;

fn main() {
    println!("cargo:rerun-if-env-changed=ACPI_LIB_DIR");
    let folder = match std::env::var_os("ACPI_LIB_DIR") {
        Some(folder) => PathBuf::from(folder),
        None => PathBuf::from(std::env::var_os("CARGO_MANIFEST_DIR").expect("cargo sets it")).join("../target/staticlib"),
    };
    let library = folder.join("libacpi.a");
    println!("cargo:rerun-if-changed={}", library.display());
    if !library.is_file() {
        eprintln!("there is no {}", library.display());
        eprintln!(
            "make it with `tests/library` in the repository's root, or set ACPI_LIB_DIR to the folder that has libacpi.a"
        );
        std::process::exit(1);
    }
    println!("cargo:rustc-link-search=native={}", folder.display());
    println!("cargo:rustc-link-lib=static=acpi");
}
