//! What the crate repeats of files that it does not copy stands there word for word.

use std::{fs, path::Path};

/// The text from `start` to the end of the block that it opens.
fn block<'a>(text: &'a str, start: &str) -> &'a str {
    let from = text.find(start).unwrap_or_else(|| panic!("no {start}"));
    let mut depth = 0;
    for (index, character) in text[from..].char_indices() {
        match character {
            '{' => depth += 1,
            '}' if depth == 1 => return &text[from..from + index + 1],
            '}' => depth -= 1,
            _ => {}
        }
    }
    panic!("{start} does not end");
}

fn agrees(ours: &str, below: &str, starts: &[&str]) {
    let root = std::env::var("BROODMAP_SRC").expect("BROODMAP_SRC is set");
    let original = fs::read_to_string(Path::new(&root).join("broodmap-analysis/src").join(below)).expect("the checkout has it");
    for start in starts {
        assert_eq!(block(ours, start), block(&original, start));
    }
}

#[test]
fn grid() {
    let functions = ["pub fn width", "pub fn height", "pub fn cells", "pub fn cell(", "fn index", "fn position", "fn neighbors"];
    agrees(include_str!("../src/lib.rs"), "lib.rs", &functions);
    agrees(include_str!("../src/lib.rs"), "lib.rs", &["pub struct WalkPosition", "pub struct TerrainGrid"]);
    agrees(include_str!("../src/lib.rs"), "bases/mod.rs", &["pub struct PixelPosition"]);
}

#[test]
fn topology() {
    let types =
        ["TopologyBase", "RampBoundary", "TopologyObservation", "TopologyBoundary"].map(|name| format!("pub struct {name} "));
    let types: Vec<_> = types.iter().map(String::as_str).chain(["pub enum RampSide"]).collect();
    agrees(include_str!("../src/topology/mod.rs"), "topology/mod.rs", &types);
}
