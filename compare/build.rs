//! Says where the two libraries are: in TEMBUZAR_LIB_DIR, else where `tools/archives` writes them.

use std::path::PathBuf;

fn main() {
    let home = PathBuf::from(std::env::var("CARGO_MANIFEST_DIR").expect("set by cargo"));
    let folder = match std::env::var("TEMBUZAR_LIB_DIR") {
        Ok(given) => PathBuf::from(given),
        Err(_) => home.join("../target/staticlib"),
    };
    println!("cargo:rerun-if-env-changed=TEMBUZAR_LIB_DIR");
    println!("cargo:rustc-link-search=native={}", folder.display());
    for name in ["tembuzar", "tembuzar_samples"] {
        let library = folder.join(format!("lib{name}.a"));
        println!("cargo:rerun-if-changed={}", library.display());
        if !library.exists() {
            eprintln!("{} is not there: run `tools/archives {name}` in the repository's root first", library.display());
            std::process::exit(1);
        }
        println!("cargo:rustc-link-lib=static={name}");
    }
}
