//! Links the card's static library: the file that `CARD_LIBRARY` names, or the repository's
//! crates/card_c/out/libcard_c.a; with the feature `plain` the plain engine's, `PLAIN_LIBRARY` or that
//! of crates/plain_c; and with the feature `conversion` that of the checker of conversions, `CONVERSION_LIBRARY`
//! or that of crates/conversion_c.

use std::env;
use std::path::{Path, PathBuf};

fn main() {
    link("card_c", "CARD_LIBRARY");
    if env::var_os("CARGO_FEATURE_PLAIN").is_some() {
        link("plain_c", "PLAIN_LIBRARY");
    }
    if env::var_os("CARGO_FEATURE_CONVERSION").is_some() {
        link("conversion_c", "CONVERSION_LIBRARY");
    }
}

fn link(crate_name: &str, variable: &str) {
    println!("cargo::rerun-if-env-changed={variable}");
    let library = library(crate_name, variable);
    match (library.canonicalize(), linked_name(&library)) {
        (Ok(file), Some(name)) if file.is_file() => {
            let folder = file.parent().unwrap_or(Path::new("/"));
            println!("cargo::rerun-if-changed={}", file.display());
            println!("cargo::rustc-link-search=native={}", folder.display());
            println!("cargo::rustc-link-lib=static={name}");
        }
        _ => println!(
            "cargo::error={} is missing, or its name is not lib...a: 'rt lib' in crates/{crate_name} writes out/lib{crate_name}.a there, and {variable} may name another file",
            library.display()
        ),
    }
}

fn library(crate_name: &str, variable: &str) -> PathBuf {
    match env::var_os(variable) {
        Some(path) => PathBuf::from(path),
        None => Path::new(env!("CARGO_MANIFEST_DIR"))
            .join(format!("../../crates/{crate_name}/out/lib{crate_name}.a")),
    }
}

/// What the linker calls the library: `card_c` for libcard_c.a.
fn linked_name(library: &Path) -> Option<&str> {
    library
        .file_name()?
        .to_str()?
        .strip_prefix("lib")?
        .strip_suffix(".a")
}
