//! Links libmerger.a, from the folder MERGER_LIB_DIR or from where `make archive` puts it.

use std::env;
use std::path::PathBuf;

fn main() {
    println!("cargo:rerun-if-env-changed=MERGER_LIB_DIR");
    let package =
        PathBuf::from(env::var_os("CARGO_MANIFEST_DIR").expect("cargo names the package"));
    let folder = env::var_os("MERGER_LIB_DIR").unwrap_or("../../target/merger".into());
    let folder = package.join(folder);
    let archive = folder.join("libmerger.a");
    println!("cargo:rerun-if-changed={}", archive.display());
    assert!(
        archive.is_file(),
        "no {}: run `make archive`, or name its folder in MERGER_LIB_DIR",
        archive.display()
    );
    println!("cargo:rustc-link-search=native={}", folder.display());
    println!("cargo:rustc-link-lib=static=merger");
}
