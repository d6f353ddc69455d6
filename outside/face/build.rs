//! Finds the static libraries that `outside/build` writes: in the folder named by PSZENORAD_LIB, else in the
//! repository's target.

use std::path::PathBuf;

fn main() {
    println!("cargo:rerun-if-env-changed=PSZENORAD_LIB");
    let beside = PathBuf::from(std::env::var_os("CARGO_MANIFEST_DIR").expect("cargo says where the crate is"));
    let folder = match std::env::var_os("PSZENORAD_LIB") {
        Some(folder) => PathBuf::from(folder),
        None => beside.join("../../target/staticlib"),
    };
    println!("cargo:rustc-link-search=native={}", folder.display());
    for name in ["face", "lent"] {
        let library = folder.join(format!("lib{name}.a"));
        if !library.is_file() {
            println!("cargo:warning={} is missing: run `outside/build`", library.display());
        }
        println!("cargo:rerun-if-changed={}", library.display());
        println!("cargo:rustc-link-lib=static={name}");
    }
}
