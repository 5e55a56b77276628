// Links the archive that `tools/archive` writes to target/staticlib, or the one in the folder that TEVROLIG_LIB_DIR names.
use std::path::{Path, PathBuf};
use std::process::exit;

const VARIABLE: &str = "TEVROLIG_LIB_DIR";

fn main() {
    println!("cargo:rerun-if-env-changed={VARIABLE}");
    let folder = match std::env::var_os(VARIABLE) {
        Some(named) => PathBuf::from(named),
        None => {
            let package =
                std::env::var("CARGO_MANIFEST_DIR").expect("cargo sets the package's folder");
            Path::new(&package).join("../target/staticlib")
        }
    };
    let archive = folder.join("libtevrolig.a");
    if !folder.is_absolute() || !archive.is_file() {
        eprintln!(
            "tevrolig: there is no archive {}: run `tools/archive` first,",
            archive.display()
        );
        eprintln!("or set {VARIABLE} to the folder that has libtevrolig.a, as an absolute path");
        exit(1);
    }
    println!("cargo:rustc-link-search=native={}", folder.display());
    println!("cargo:rustc-link-lib=static=tevrolig");
    println!("cargo:rerun-if-changed={}", archive.display());
}
