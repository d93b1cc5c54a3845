//! Finds the archive of proved code: in LHAMTROVI_LIB_DIR, or where `make lib` leaves it.
use std::env;
use std::path::PathBuf;

fn main() {
    println!("cargo:rerun-if-env-changed=LHAMTROVI_LIB_DIR");
    let folder = match env::var_os("LHAMTROVI_LIB_DIR") {
        Some(folder) => PathBuf::from(folder),
        None => PathBuf::from(env::var_os("CARGO_MANIFEST_DIR").expect("cargo sets it"))
            .join("../../target/staticlib"),
    };
    let archive = folder.join("liblhamtrovi.a");
    println!("cargo:rerun-if-changed={}", archive.display());
    if !archive.is_file() {
        panic!("no liblhamtrovi.a: run 'make lib' first, or set LHAMTROVI_LIB_DIR to its folder");
    }
    println!("cargo:rustc-link-search=native={}", folder.display());
    println!("cargo:rustc-link-lib=static=lhamtrovi");
}
