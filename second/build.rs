//! Links the library where ZUCCHINICOVE_LIB names the folder of its archive, or the archive itself; without that there
//! is none to compare with.

use std::path::PathBuf;

/// The archive: `libembed.a` where a folder is named, or else the file that is named.
fn archive(named: PathBuf) -> PathBuf {
    if named.is_dir() {
        named.join("libembed.a")
    } else {
        named
    }
}

fn main() {
    println!("cargo:rerun-if-env-changed=ZUCCHINICOVE_LIB");
    println!("cargo:rustc-check-cfg=cfg(linked)");
    if let Some(named) = std::env::var_os("ZUCCHINICOVE_LIB") {
        let archive = archive(PathBuf::from(named));
        println!("cargo:rerun-if-changed={}", archive.display());
        println!("cargo:rustc-link-arg={}", archive.display());
        println!("cargo:rustc-cfg=linked");
    }
}
