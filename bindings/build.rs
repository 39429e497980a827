//! Links the archive of each feature that is on, from the folder LILIVREZ_LIB_DIR, or where that is not set from the
//! one that `tools/build` writes to.
use std::env;
use std::path::{Path, PathBuf};
use std::process;

fn main() {
    let libraries = libraries();
    println!("cargo:rerun-if-env-changed=LILIVREZ_LIB_DIR");
    println!("cargo:rustc-link-search=native={}", libraries.display());
    for feature in ["verifier", "agent", "frames"] {
        let switch = format!("CARGO_FEATURE_{}", feature.to_uppercase());
        if env::var_os(switch).is_some() {
            link(&libraries, &format!("lilivrez_{feature}"));
        }
    }
}

fn libraries() -> PathBuf {
    match env::var_os("LILIVREZ_LIB_DIR") {
        Some(folder) if !folder.is_empty() => PathBuf::from(folder),
        _ => {
            let package = env::var_os("CARGO_MANIFEST_DIR").expect("cargo sets it");
            Path::new(&package).join("../target/staticlib")
        }
    }
}

fn link(libraries: &Path, name: &str) {
    let archive = libraries.join(format!("lib{name}.a"));
    println!("cargo:rerun-if-changed={}", archive.display());
    if !archive.is_file() {
        eprintln!(
            "{} is missing: set LILIVREZ_LIB_DIR to the absolute path of the folder that has lib{name}.a, \
             or build it with tools/build {name}",
            archive.display()
        );
        process::exit(1);
    }
    println!("cargo:rustc-link-lib=static={name}");
}
