//! Links libpicky_der: the archive in the folder that PICKY_DER_LIB names, or the library that pkg-config finds.
use std::env;
use std::process::Command;

fn main() {
    println!("cargo:rerun-if-env-changed=PICKY_DER_LIB");
    if let Ok(folder) = env::var("PICKY_DER_LIB") {
        println!("cargo:rerun-if-changed={folder}/libpicky_der.a");
        println!("cargo:rustc-link-search=native={folder}");
        println!("cargo:rustc-link-lib=static=picky_der");
        return;
    }
    let found = Command::new("pkg-config").args(["--variable=libdir", "picky_der"]).output();
    match found {
        Ok(said) if said.status.success() => {
            println!("cargo:rustc-link-search=native={}", String::from_utf8_lossy(&said.stdout).trim());
            println!("cargo:rustc-link-lib=picky_der");
        }
        _ => panic!("set PICKY_DER_LIB to the folder of libpicky_der.a, or install the library so that pkg-config finds it"),
    }
}
