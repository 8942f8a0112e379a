//! Finds the archives of the exports and has them linked.

use std::env;
use std::path::PathBuf;
use std::process::exit;

/// Each holds its own copy of what it needs; only the exported names are seen from outside.
const ARCHIVES: [&str; 5] = [
    "export_buffer",
    "export_skipped",
    "export_group",
    "export_join",
    "export_fill",
];

/// Where `bindings/build` puts them, seen from this package.
const USUAL_PLACE: &str = "../../target/staticlib";

fn main() {
    println!("cargo:rerun-if-env-changed=LINTELSONG_ARCHIVES");
    println!("cargo:rerun-if-changed=build.rs");
    // A relative folder is seen from this package, where cargo runs this program.
    let place = env::var_os("LINTELSONG_ARCHIVES").unwrap_or_else(|| USUAL_PLACE.into());
    let place = PathBuf::from(place);
    for name in ARCHIVES {
        let archive = place.join(format!("lib{name}.a"));
        println!("cargo:rerun-if-changed={}", archive.display());
        if !archive.is_file() {
            eprintln!(
                "{} is missing: `bindings/build` makes it;",
                archive.display()
            );
            eprintln!("LINTELSONG_ARCHIVES names the folder of the archives if it is another.");
            exit(1);
        }
        println!("cargo:rustc-link-lib=static={name}");
    }
    match place.canonicalize() {
        Ok(place) => println!("cargo:rustc-link-search=native={}", place.display()),
        Err(error) => {
            eprintln!("{}: {error}", place.display());
            exit(1);
        }
    }
}
