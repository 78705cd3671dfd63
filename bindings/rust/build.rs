//! Finds `libpepperknoll.a` and has it linked.

use std::env;
use std::path::PathBuf;

fn main() {
    println!("cargo:rerun-if-env-changed=PEPPERKNOLL_LIB_DIR");
    println!("cargo:rerun-if-changed=build.rs");
    let folder = folder();
    let library = folder.join("libpepperknoll.a");
    println!("cargo:rerun-if-changed={}", library.display());
    // Not a failure: `cargo check` and `cargo doc` do without the library, and where it is
    // needed the linking stops right after this message.
    if !library.is_file() {
        println!(
            "cargo:warning={} is not there: build the static library first, \
             or name its folder in PEPPERKNOLL_LIB_DIR; nothing can be linked without it",
            library.display()
        );
    }
    println!("cargo:rustc-link-search=native={}", folder.display());
    println!("cargo:rustc-link-lib=static=pepperknoll");
}

/// The folder named by the caller, else the place where the repository builds the library.
fn folder() -> PathBuf {
    match env::var_os("PEPPERKNOLL_LIB_DIR") {
        Some(named) => PathBuf::from(named),
        None => PathBuf::from(env::var_os("CARGO_MANIFEST_DIR").expect("cargo sets it"))
            .join("../../target/staticlib"),
    }
}
