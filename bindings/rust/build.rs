//! Links the static library that `rt lib` writes in crates/embed; ZUCCHINICOVE_LIB names another folder that holds it.
use std::env;
use std::path::PathBuf;

fn main() {
    println!("cargo:rerun-if-env-changed=ZUCCHINICOVE_LIB");
    let folder = match env::var_os("ZUCCHINICOVE_LIB") {
        Some(folder) => PathBuf::from(folder),
        None => PathBuf::from(env!("CARGO_MANIFEST_DIR")).join("../../crates/embed/out"),
    };
    println!("cargo:rustc-link-search=native={}", folder.display());
    println!("cargo:rustc-link-lib=static=embed");
    println!("cargo:rerun-if-changed={}", folder.join("libembed.a").display());
}
