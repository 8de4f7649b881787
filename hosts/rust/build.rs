//! Links crates/capping/out/libcapping.a, which `rt lib` writes in crates/capping.
use std::env;
use std::path::Path;

fn main() {
    let package = env::var("CARGO_MANIFEST_DIR").expect("cargo sets CARGO_MANIFEST_DIR");
    let archives = Path::new(&package).join("../../crates/capping/out");
    println!(
        "cargo:rerun-if-changed={}",
        archives.join("libcapping.a").display()
    );
    println!("cargo:rustc-link-search=native={}", archives.display());
    println!("cargo:rustc-link-lib=static=capping");
}
