//! Links the library that the variable `SYNTHESIS_ARCHIVE` names, or the one that `make library` builds in `bindings`,
//! or the one that `make install` installs beside this crate.

use std::env;
use std::path::PathBuf;

fn main() {
    println!("cargo:rerun-if-env-changed=SYNTHESIS_ARCHIVE");
    let here = PathBuf::from(env::var_os("CARGO_MANIFEST_DIR").expect("cargo names the crate's folder"));
    let places = match env::var_os("SYNTHESIS_ARCHIVE") {
        Some(archive) => vec![PathBuf::from(archive)],
        None => vec![here.join("../out/libsynthesis.a"), here.join("../../lib/libsynthesis.a")],
    };
    for place in &places {
        println!("cargo:rerun-if-changed={}", place.display());
    }
    // What links nothing, such as `cargo check`, `cargo doc` and an editor, needs no library.
    let Some(archive) = places.iter().find_map(|place| place.canonicalize().ok()) else {
        println!(
            "cargo:warning={} isn't there: `make library` in bindings builds it, or let SYNTHESIS_ARCHIVE name another",
            places[0].display()
        );
        return;
    };
    let name = archive.file_name().and_then(|name| name.to_str()).unwrap_or_default();
    let Some(name) = name.strip_prefix("lib").and_then(|name| name.strip_suffix(".a")) else {
        panic!("{} isn't named lib*.a", archive.display());
    };
    let folder = archive.parent().expect("a file is in a folder");
    println!("cargo:rustc-link-search=native={}", folder.display());
    println!("cargo:rustc-link-lib=static={name}");
}
