//! Links libjenwyllt.a, from target/lib at the repository's root or from the folder that `JENWYLLT_LIB` names.

use std::path::{Path, PathBuf};
use std::{env, fs};

fn main() {
    println!("cargo::rerun-if-changed=build.rs");
    println!("cargo::rerun-if-env-changed=JENWYLLT_LIB");
    let folder = match env::var_os("JENWYLLT_LIB").filter(|folder| !folder.is_empty()) {
        Some(folder) => PathBuf::from(folder),
        None => Path::new(env!("CARGO_MANIFEST_DIR")).join("../../target/lib"),
    };
    let archive = folder.join("libjenwyllt.a");
    println!("cargo::rerun-if-changed={}", archive.display());
    if !archive.is_file() {
        stop(&format!(
            "{} is missing: run tools/build_library.sh, or set JENWYLLT_LIB to the absolute path of the folder that holds libjenwyllt.a",
            archive.display()
        ));
    }
    println!("cargo::rustc-link-lib=static=jenwyllt");
    match fs::canonicalize(&folder) {
        Ok(folder) => println!("cargo::rustc-link-search=native={}", folder.display()),
        Err(error) => stop(&format!("cannot find {}: {error}", folder.display())),
    }
}

fn stop(sentence: &str) -> ! {
    println!("cargo::error={sentence}");
    std::process::exit(1);
}
