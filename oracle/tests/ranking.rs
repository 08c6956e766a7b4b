//! The ranking of pass 3 as the watched copy shows it: case J, and a map in which a proposal is refused.

use oracle::sheet::{ReadLimits, read};
use oracle::topology::harness::{Answer, Room, ranked};
use std::fs;

fn list(name: &str) -> Vec<[u64; 6]> {
    let path = format!("{}/../examples/{name}.sheet", env!("CARGO_MANIFEST_DIR"));
    let bytes = fs::read(&path).unwrap_or_else(|error| panic!("{path}: {error}"));
    let map = read(&bytes, ReadLimits { cells: 4_096, bytes: None }).expect("a sheet");
    let Answer::Done((kept, list)) = ranked(&map, Room::UNLIMITED) else { panic!("{name} is accepted") };
    let taken = list.iter().filter(|row| row[4] == 1).count();
    assert_eq!(kept.rows.len() + taken, map.boundaries.len() / 9, "pass 3 removes just those that are taken");
    list
}

#[test]
fn case_j() {
    assert_eq!(list("case_j"), [[0, 0, 3, 4, 1, 0]]);
}

#[test]
fn junctions() {
    assert_eq!(list("junctions"), [[0, 0, 4, 5, 1, 0], [1, 6, 7, 6, 1, 0], [0, 4, 5, 6, 0, 0]]);
}
