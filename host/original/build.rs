//! Writes the module `rite`, whose parts are the sources of the original where they stand.

use std::path::PathBuf;
use std::{env, fs};

fn main() {
    println!("cargo::rerun-if-env-changed=BLOTHEATH_ORIGINAL");
    println!("cargo::rerun-if-changed=build.rs");
    let sources = match env::var_os("BLOTHEATH_ORIGINAL") {
        Some(folder) => PathBuf::from(folder),
        None => PathBuf::from(env::var_os("CARGO_MANIFEST_DIR").unwrap())
            .join("../../../shared/docs/src"),
    };
    let mut parts = String::new();
    for part in ["binfmt", "insn", "rite"] {
        let file = sources.join(format!("mrubyedge/src/rite/{part}.rs"));
        let Ok(file) = file.canonicalize() else {
            println!(
                "cargo::error={} is not there; BLOTHEATH_ORIGINAL names the folder that has mrubyedge/src",
                file.display()
            );
            return;
        };
        println!("cargo::rerun-if-changed={}", file.display());
        println!("cargo::rustc-env=ORIGINAL_{part}={}", file.display());
        parts += &format!(
            "#[path = {:?}]\npub mod {part};\n",
            file.display().to_string()
        );
    }
    let module = format!(
        "#[allow(warnings, clippy::all)]\npub mod rite {{\npub use crate::Error;\npub use crate::marker;\n{parts}}}\n"
    );
    let out = PathBuf::from(env::var_os("OUT_DIR").unwrap()).join("original.rs");
    fs::write(out, module).unwrap();
}
