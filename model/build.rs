//! Links the library that `host/archive` made; ABEZOLIT_LIB_DIR names its folder if it is another.

use std::env;
use std::path::PathBuf;

fn main() {
    let folder = match env::var_os("ABEZOLIT_LIB_DIR") {
        Some(folder) => PathBuf::from(folder),
        None => PathBuf::from(env::var_os("CARGO_MANIFEST_DIR").expect("cargo sets it")).join("../target/staticlib"),
    };
    println!("cargo:rustc-link-search=native={}", folder.display());
    println!("cargo:rustc-link-lib=static=service");
    println!("cargo:rerun-if-env-changed=ABEZOLIT_LIB_DIR");
    println!("cargo:rerun-if-changed={}", folder.join("libservice.a").display());
}
