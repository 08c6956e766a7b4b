//! Running to rest beside the Rust's passes called by turns, each with a partition and a context of its own; and beside one call of each of our passes.

use crate::ours::{self, Lent};
use crate::timing::{time, timed};
use crate::{PASSES, maps};
use oracle::sheet::Map;
use oracle::topology::harness::{Original, row};
use std::cell::RefCell;
use std::time::Duration;

const NUMBERS_PER_BOUNDARY: usize = 9;
const NUMBERS_PER_SPAN: usize = 4;
const NUMBERS_PER_ROW: usize = 5;

pub fn run(budget: Duration, wanted: impl Fn(&str) -> bool) {
    println!("\nrunning to rest, microseconds, least of many runs\n");
    println!(
        "{:<24} {:>7} {:>7} {:>14} {:>14} {:>7} {:>14} {:>7}",
        "", "rounds", "kept", "Rust by turns", "run_to_rest", "ratio", "our 3 calls", "ratio"
    );
    for named in maps::all().iter().filter(|named| wanted(named.name)) {
        let kept = one(named.name, &starting(&named.map), budget);
        // What is kept rests at once.
        one(&format!("{} at rest", named.name), &kept, budget);
    }
}

/// Gives the map of what is kept.
fn one(name: &str, map: &Map, budget: Duration) -> Map {
    let original = Original::new(map);
    let partition = original.partition();
    let pairs = partition.boundaries().iter().map(|entry| entry.region_pairs.len()).sum();
    let lent = RefCell::new(Lent::new(map, partition.areas().len(), pairs));
    let maps = PASSES.map(|pass| Map { pass, ..map.clone() });
    let times = {
        let lent = &lent;
        let calls = vec![
            timed(|| by_turns(map)),
            timed(|| ours::run_to_rest(map, &mut lent.borrow_mut())),
            timed(|| maps.each_ref().map(|map| ours::kept_boundaries(map, &mut lent.borrow_mut()))),
        ];
        time(budget, vec![calls]).swap_remove(0)
    };
    let (rows, rounds) = by_turns(map);
    let counts = ours::run_to_rest(map, &mut lent.borrow_mut()).expect("the map is accepted");
    if (counts.kept as usize, counts.rounds) != (rows.len() / NUMBERS_PER_ROW, rounds) || !lent.borrow().output.starts_with(&rows) {
        println!("the rows of {name} at rest are unlike the Rust's with the C library's hypot");
    }
    let [rust, rest, calls] = [0, 1, 2].map(|place| times[place].least());
    println!(
        "{name:<24} {:>7} {:>7} {rust:>14.1} {rest:>14.1} {:>7.2} {calls:>14.1} {:>7.2}",
        counts.rounds,
        counts.kept,
        rest / rust,
        rest / calls
    );
    let boundary = |number: u64| map.boundaries.chunks(NUMBERS_PER_BOUNDARY).nth(number as usize).expect("a boundary's number").to_vec();
    let numbers = lent.borrow().output.iter().step_by(NUMBERS_PER_ROW).take(counts.kept as usize).copied().collect::<Vec<_>>();
    with(map, &numbers.into_iter().map(boundary).collect::<Vec<_>>())
}

/// The map with its boundaries in row order, the smaller endpoint first, and these as spans: what every run begins with.
fn starting(map: &Map) -> Map {
    let mut entries: Vec<Vec<u64>> = map.boundaries.chunks(NUMBERS_PER_BOUNDARY).map(canonical).collect();
    entries.sort_by(|one, other| one[..NUMBERS_PER_SPAN].cmp(&other[..NUMBERS_PER_SPAN]));
    with(map, &entries)
}

fn canonical(boundary: &[u64]) -> Vec<u64> {
    let mut ends = [[boundary[0], boundary[1]], [boundary[2], boundary[3]]];
    ends.sort_unstable();
    [ends.as_flattened(), &boundary[NUMBERS_PER_SPAN..]].concat()
}

fn with(map: &Map, entries: &[Vec<u64>]) -> Map {
    let spans = entries.iter().flat_map(|entry| &entry[..NUMBERS_PER_SPAN]).copied().collect();
    Map { spans, boundaries: entries.concat(), ..map.clone() }
}

/// The Rust: the rows at rest and the rounds. Numbers are those of the starting list.
fn by_turns(map: &Map) -> (Vec<u64>, u64) {
    let mut entries: Vec<(u64, Vec<u64>)> = (0..).zip(map.boundaries.chunks(NUMBERS_PER_BOUNDARY).map(<[u64]>::to_vec)).collect();
    let mut rounds = 0;
    loop {
        let before = entries.len();
        for pass in PASSES {
            let original = Original::new(&with(map, &entries.iter().map(|(_, entry)| entry.clone()).collect::<Vec<_>>()));
            let partition = original.partition();
            let kept = original.pass(pass, &original.context(&partition));
            entries = kept.iter().map(|kept| entries[row(kept)[0] as usize].clone()).collect();
        }
        rounds += 1;
        if entries.len() == before {
            let rows = entries.iter().flat_map(|(number, entry)| [&[*number][..], &entry[..NUMBERS_PER_SPAN]].concat()).collect();
            return (rows, rounds);
        }
    }
}
