//! Links the proved archive that `tools/archive exports` writes.
use std::env;
use std::path::PathBuf;

fn main() {
    let root = PathBuf::from(env::var("CARGO_MANIFEST_DIR").unwrap()).join("..");
    let folder = env::var("PAMZOLIT_ARCHIVE_DIR").map(PathBuf::from).unwrap_or_else(|_| root.join("target/staticlib"));
    println!("cargo:rustc-link-search=native={}", folder.display());
    println!("cargo:rustc-link-lib=static=exports");
    println!("cargo:rerun-if-changed={}", folder.join("libexports.a").display());
    println!("cargo:rerun-if-env-changed=PAMZOLIT_ARCHIVE_DIR");
}
