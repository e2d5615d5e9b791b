//! With the feature `proved`: links the static library of the proved player.

use std::env;

/// The library's name where PROVED_LIB_NAME does not tell another: it is NAME in libNAME.a.
const LIBRARY: &str = "playback";

fn main() {
    println!("cargo::rerun-if-changed=build.rs");
    println!("cargo::rerun-if-env-changed=PROVED_LIB_DIR");
    println!("cargo::rerun-if-env-changed=PROVED_LIB_NAME");
    if env::var_os("CARGO_FEATURE_PROVED").is_none() {
        return;
    }
    let Ok(folder) = env::var("PROVED_LIB_DIR") else {
        println!("cargo::error=the feature 'proved' wants PROVED_LIB_DIR, the folder of the library");
        return;
    };
    let library = env::var("PROVED_LIB_NAME").unwrap_or_else(|_| LIBRARY.to_string());
    println!("cargo::rerun-if-changed={folder}/lib{library}.a");
    println!("cargo::rustc-link-search=native={folder}");
    println!("cargo::rustc-link-lib=static:-bundle={library}");
}
