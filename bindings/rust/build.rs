//! Tells the linker where `bindings/archive` left the archive: the folder named by JOMANKITU_LIB, or target/staticlib of this repository.
fn main() {
    println!("cargo:rerun-if-env-changed=JOMANKITU_LIB");
    let here = std::env::var("CARGO_MANIFEST_DIR").unwrap_or_default();
    let folder = std::env::var("JOMANKITU_LIB").unwrap_or(format!("{here}/../../target/staticlib"));
    println!("cargo:rustc-link-search=native={folder}");
    println!("cargo:rustc-link-lib=static=exports");
}
