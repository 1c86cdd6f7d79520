//! Links the proved library, which `scripts/build-library exports` writes; `COBBRUNDLE_LIB` names another folder that has it.

use std::path::PathBuf;

fn main() {
    let given = std::env::var_os("COBBRUNDLE_LIB").map(PathBuf::from);
    let folder =
        given.unwrap_or_else(|| std::env::current_dir().unwrap().join("../../target/staticlib"));
    println!("cargo:rustc-link-search=native={}", folder.display());
    println!("cargo:rustc-link-lib=static=exports");
    println!("cargo:rerun-if-changed={}", folder.join("libexports.a").display());
    println!("cargo:rerun-if-env-changed=COBBRUNDLE_LIB");
}
