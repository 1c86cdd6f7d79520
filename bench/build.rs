//! Links the proved library, which `scripts/build-library run_speed` writes.

fn main() {
    let folder = std::env::current_dir().unwrap().join("../target/staticlib");
    println!("cargo:rustc-link-search=native={}", folder.display());
    println!("cargo:rustc-link-lib=static=run_speed");
    println!("cargo:rerun-if-changed={}", folder.join("librun_speed.a").display());
}
