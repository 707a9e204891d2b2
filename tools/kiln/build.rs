//! Tells the linker where the library's archive lies: in the folder that
//! JENNYDUSK_ARCHIVE names, or where `tools/build jennydusk` puts it.

use std::env;
use std::path::Path;

fn main() {
    let package = env::var("CARGO_MANIFEST_DIR").expect("cargo names the package's folder");
    let usual = Path::new(&package).join("../../target/staticlib");
    let folder = env::var("JENNYDUSK_ARCHIVE").unwrap_or(usual.display().to_string());
    println!("cargo:rustc-link-search=native={folder}");
    println!("cargo:rerun-if-env-changed=JENNYDUSK_ARCHIVE");
    println!("cargo:rerun-if-changed={folder}/libjennydusk.a");
}
