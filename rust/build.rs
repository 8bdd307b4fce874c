//! Finds libcapi.a, which `./build library` writes to target/staticlib of the repository. The variable MASTDOCK_LIBRARY_DIR names
//! another folder.
use std::env;
use std::path::PathBuf;
use std::process::exit;

fn main() {
    println!("cargo:rerun-if-env-changed=MASTDOCK_LIBRARY_DIR");
    let folder = match env::var_os("MASTDOCK_LIBRARY_DIR") {
        Some(folder) => PathBuf::from(folder),
        None => {
            let here = PathBuf::from(env::var_os("CARGO_MANIFEST_DIR").expect("cargo sets CARGO_MANIFEST_DIR"));
            here.join("../target/staticlib")
        }
    };
    let library = folder.join("libcapi.a");
    if !library.is_file() {
        eprintln!(
            "{} is not there: run `./build library` in the repository, or name its folder in MASTDOCK_LIBRARY_DIR",
            library.display()
        );
        exit(1);
    }
    println!("cargo:rerun-if-changed={}", library.display());
    println!("cargo:rustc-link-search=native={}", folder.display());
    println!("cargo:rustc-link-lib=static=capi");
}
