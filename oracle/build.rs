//! Copies the four files from the checkout that `BROODMAP_SRC` names, byte for byte, and writes the `mod` lines that compile the
//! copies in the places that their own `use` lines expect.

use std::path::{Path, PathBuf};
use std::{env, fs};

const BELOW: &str = "broodmap-analysis/src";

fn main() {
    println!("cargo::rerun-if-changed=build.rs");
    println!("cargo::rerun-if-env-changed=BROODMAP_SRC");
    let Some(root) = env::var_os("BROODMAP_SRC").filter(|root| !root.is_empty()) else {
        stop("set BROODMAP_SRC to the absolute path of a checkout of ShieldBattery/broodmap at 7132ab33a6");
    };
    let from = Path::new(&root).join(BELOW);
    let to = PathBuf::from(env::var_os("OUT_DIR").expect("cargo sets OUT_DIR"));
    let crate_modules = copy(&from, &to, "pub", &["areas"]);
    let topology_modules = copy(&from, &to, "mod", &["topology/context", "topology/ramp_boundaries", "topology/junctions"]);
    write(&to.join("crate_modules.rs"), &crate_modules);
    write(&to.join("topology_modules.rs"), &(topology_modules + &watched(&to)));
}

/// A second copy of the junction pass, with a line behind its sort and a module below it, and the lines that declare it. What pass 3 answers comes from the copy that has
/// neither.
fn watched(to: &Path) -> String {
    println!("cargo::rerun-if-changed=src/topology/ranking.rs");
    let text =
        fs::read_to_string(to.join("junctions.rs")).unwrap_or_else(|error| stop(&format!("cannot read the copy: {error}")));
    let behind_sort = "    });\n\n    let mut removed = BTreeSet::new();\n";
    if text.matches(behind_sort).count() != 1 {
        stop("the sort of select_proposals does not stand where it did");
    }
    let seen = text.replace(behind_sort, "    });\n    ranking::seen(&ranked);\n\n    let mut removed = BTreeSet::new();\n");
    let ranking = Path::new(&env::var_os("CARGO_MANIFEST_DIR").expect("cargo sets it")).join("src/topology/ranking.rs");
    let target = to.join("watched_junctions.rs");
    write(&target, &format!("{seen}\n#[path = {:?}]\npub mod ranking;\n", ranking.display().to_string()));
    format!("#[allow(dead_code)]\n#[path = {:?}]\nmod watched_junctions;\n", target.display().to_string())
}

/// Copies each named file and returns the lines that declare them as modules.
fn copy(from: &Path, to: &Path, visibility: &str, names: &[&str]) -> String {
    let mut lines = String::new();
    for name in names {
        let source = from.join(name).with_extension("rs");
        let stem = Path::new(name).file_name().and_then(|stem| stem.to_str()).expect("plain file names");
        let target = to.join(stem).with_extension("rs");
        println!("cargo::rerun-if-changed={}", source.display());
        let bytes = fs::read(&source).unwrap_or_else(|error| {
            stop(&format!(
                "cannot read {}: {error}; BROODMAP_SRC must be the absolute path of a checkout of ShieldBattery/broodmap at 7132ab33a6",
                source.display()
            ))
        });
        fs::write(&target, bytes).unwrap_or_else(|error| stop(&format!("cannot write {}: {error}", target.display())));
        let word = if visibility == "pub" { "pub mod" } else { "mod" };
        lines += &format!("#[allow(dead_code)]\n#[path = {:?}]\n{word} {stem};\n", target.display().to_string());
    }
    lines
}

fn write(path: &Path, text: &str) {
    fs::write(path, text).unwrap_or_else(|error| stop(&format!("cannot write {}: {error}", path.display())));
}

fn stop(sentence: &str) -> ! {
    println!("cargo::error={sentence}");
    std::process::exit(1);
}
