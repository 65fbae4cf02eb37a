// Tells cargo where the static libraries are: in the folder that TUSSELGRO_LIB names, or where `tools/libraries` of this
// repository leaves them; a relative folder counts from here. A build for another target than the libraries' is refused by
// src/lib.rs.

use std::path::Path;

const HERE: &str = env!("CARGO_MANIFEST_DIR");

fn main() {
    println!("cargo:rerun-if-env-changed=TUSSELGRO_LIB");
    let named =
        std::env::var("TUSSELGRO_LIB").unwrap_or_else(|_| "../../target/staticlib".to_string());
    let folder = Path::new(HERE).join(named);
    println!("cargo:rustc-link-search=native={}", folder.display());
    for library in ["boundary", "parts"] {
        let archive = folder.join(format!("lib{library}.a"));
        if !archive.exists() {
            println!(
                "cargo:warning=no {}: `tools/libraries` builds it, and TUSSELGRO_LIB names its folder",
                archive.display()
            );
        }
        println!("cargo:rerun-if-changed={}", archive.display());
        println!("cargo:rustc-link-lib=static={library}");
    }
}
