//! Links the static library of crate acpi, whose folder ACPI_LIB_DIR names.
fn main() {
    let folder = std::env::var("ACPI_LIB_DIR").expect("ACPI_LIB_DIR names the folder of libacpi.a");
    println!("cargo:rustc-link-search=native={folder}");
    println!("cargo:rustc-link-lib=static=acpi");
    println!("cargo:rerun-if-env-changed=ACPI_LIB_DIR");
    println!("cargo:rerun-if-changed={folder}/libacpi.a");
}
