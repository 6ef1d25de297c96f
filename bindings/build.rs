//! Finds the static library: the file that PAILORCHARD_LIBRARY names, or what `rt lib` wrote in crates/pailorchard.

use std::path::PathBuf;

fn main() {
    println!("cargo:rerun-if-env-changed=PAILORCHARD_LIBRARY");
    let written =
        concat!(env!("CARGO_MANIFEST_DIR"), "/../crates/pailorchard/out/libpailorchard.a");
    let named = std::env::var_os("PAILORCHARD_LIBRARY");
    let library = named.map_or(PathBuf::from(written), PathBuf::from);
    println!("cargo:rerun-if-changed={}", library.display());
    let (Ok(library), true) = (library.canonicalize(), library.is_file()) else {
        eprintln!("The static library is not at {}.", library.display());
        eprintln!("Run `rt lib` in the folder crates/pailorchard,");
        eprintln!("or set PAILORCHARD_LIBRARY to the path of a libpailorchard.a.");
        std::process::exit(1);
    };
    // A canonical path of a file has a folder and a name.
    let (folder, name) = (library.parent().unwrap(), library.file_name().unwrap());
    println!("cargo:rustc-link-search=native={}", folder.display());
    println!("cargo:rustc-link-lib=static:+verbatim={}", name.to_string_lossy());
}
