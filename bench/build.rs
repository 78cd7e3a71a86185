//! Links the archive that ZUCCHINICOVE_CALLS names, and hands on by how many bytes the code is shifted.

fn main() {
    println!("cargo:rerun-if-env-changed=ZUCCHINICOVE_CALLS");
    println!("cargo:rerun-if-env-changed=BENCH_SHIFT");
    let path = std::env::var("ZUCCHINICOVE_CALLS").expect("ZUCCHINICOVE_CALLS names an archive");
    println!("cargo:rerun-if-changed={path}");
    println!("cargo:rustc-link-arg={path}");
    let shift = std::env::var("BENCH_SHIFT").unwrap_or("0".to_string());
    println!("cargo:rustc-env=BENCH_SHIFT={shift}");
}
