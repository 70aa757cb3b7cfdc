//! Links the product's static library, once a feature asks for it.

use std::env;
use std::path::PathBuf;

fn main() {
    println!("cargo:rerun-if-changed=build.rs");
    println!("cargo:rerun-if-env-changed=PUNQELIS_LIB");
    if env::var_os("CARGO_FEATURE_CHECK").is_none() {
        return;
    }
    let folder = match env::var_os("PUNQELIS_LIB") {
        Some(folder) => PathBuf::from(folder),
        None => PathBuf::from(env::var_os("CARGO_MANIFEST_DIR").expect("set by cargo"))
            .join("../target/staticlib"),
    };
    println!("cargo:rustc-link-search=native={}", folder.display());
    println!("cargo:rustc-link-lib=static=punqelis");
    println!(
        "cargo:rerun-if-changed={}",
        folder.join("libpunqelis.a").display()
    );
}
