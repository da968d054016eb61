//! Finds libstation_air: in the folder that STATION_AIR_LIB_DIR names, or in the repository's own build.

use std::env;
use std::path::{Path, PathBuf};

const VARIABLE: &str = "STATION_AIR_LIB_DIR";

fn main() {
    println!("cargo:rerun-if-env-changed={VARIABLE}");
    let folder = match env::var_os(VARIABLE) {
        Some(folder) => PathBuf::from(folder),
        None => Path::new(&env::var_os("CARGO_MANIFEST_DIR").expect("cargo sets it"))
            .join("../target/staticlib"),
    };
    let (kind, file) = [("static", "libstation_air.a"), ("dylib", "libstation_air.so")]
        .map(|(kind, name)| (kind, folder.join(name)))
        .into_iter()
        .find(|(_, file)| file.exists())
        .unwrap_or_else(|| {
            eprintln!("error: no libstation_air.a and no libstation_air.so in {}", folder.display());
            eprintln!("Set {VARIABLE} to the folder that has one: the `lib` of the PREFIX that install.sh was given;");
            eprintln!("or build it in the repository of this crate: examples/library.sh, with the Rattle kit on the path.");
            std::process::exit(1);
        });
    println!("cargo:rerun-if-changed={}", file.display());
    println!("cargo:rustc-link-search=native={}", folder.display());
    println!("cargo:rustc-link-lib={kind}=station_air");
}
