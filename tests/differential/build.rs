//! Links the archive of the library under test and that of the crate `bench`.

use std::env;
use std::path::PathBuf;

fn main() {
    let folder = match env::var_os("CRUMBTHISTLE_LIB") {
        Some(folder) => PathBuf::from(folder),
        None => {
            let here =
                env::var_os("CARGO_MANIFEST_DIR").expect("cargo names the manifest's folder");
            PathBuf::from(here).join("../../target/staticlib")
        }
    };
    println!("cargo:rerun-if-env-changed=CRUMBTHISTLE_LIB");
    println!("cargo:rustc-link-search=native={}", folder.display());
    for name in ["capi", "bench"] {
        let archive = folder.join(format!("lib{name}.a"));
        println!("cargo:rerun-if-changed={}", archive.display());
        println!("cargo:rustc-link-lib=static={name}");
    }
}
