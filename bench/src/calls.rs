//! What is called on a map: the Rust's steps, and our calls.

use crate::PASSES;
use crate::ours::{self, Lent};
use crate::timing::{Timed, timed};
use oracle::sheet::Map;
use oracle::topology::harness::Original;
use std::cell::RefCell;

const NUMBERS_PER_BOUNDARY: usize = 9;
const KIND: usize = 5;

/// The Rust's steps: the partition, the context, each pass alone, and all three one after the other.
pub const RUST: [&str; 8] = ["partition", "context", "pass-1", "pass-2", "pass-3", "call-1", "call-2", "call-3"];

/// Ours. `refused` has one pair row too few: it partitions the map and does no more. `bare` has no boundaries: it fills the records, and no
/// pass runs, since there are fewer boundaries than spans. `fewer` has one boundary too few, so that no pass runs either, and writes the rows.
/// `plain` is pass 1 of boundaries without ramps: it makes what a pass reads besides the records, finds no ramp, and writes the rows.
pub const OWN: [&str; 8] = ["partition", "refused", "bare", "fewer", "plain", "call-1", "call-2", "call-3"];

/// Makes the calls of RUST and of OWN, in their order, and what they need.
pub fn with_calls<T>(map: &Map, run: impl FnOnce(Vec<Timed>, Vec<Timed>) -> T) -> T {
    let original = Original::new(map);
    let partition = original.partition();
    let context = original.context(&partition);
    let pairs = partition.boundaries().iter().map(|entry| entry.region_pairs.len()).sum();
    let lent = RefCell::new(Lent::new(map, partition.areas().len(), pairs));
    let bare = Map { boundaries: vec![], ..map.clone() };
    let plain = without_ramps(map);
    let fewer = one_fewer(&plain);
    let maps = PASSES.map(|pass| Map { pass, ..map.clone() });

    let mut rust = vec![timed(|| original.partition()), timed(|| original.context(&partition))];
    rust.extend(PASSES.map(|pass| {
        let (original, context) = (&original, &context);
        timed(move || original.pass(pass, context))
    }));
    rust.extend(PASSES.map(|pass| {
        let original = &original;
        timed(move || whole(original, pass))
    }));
    let own = |call: ours::Call, map| {
        let lent = &lent;
        timed(move || call(map, &mut lent.borrow_mut()))
    };
    let mut ours = vec![own(ours::partition, map), own(ours::refused, map)];
    ours.extend([&bare, &fewer, &plain].into_iter().chain(&maps).map(|map| own(ours::kept_boundaries, map)));
    run(rust, ours)
}

/// The Rust's steps of a call that runs a pass.
fn whole(original: &Original, pass: u64) -> usize {
    let partition = original.partition();
    let context = original.context(&partition);
    original.pass(pass, &context).len()
}

fn without_ramps(map: &Map) -> Map {
    let mut map = Map { pass: 1, ..map.clone() };
    for boundary in map.boundaries.chunks_mut(NUMBERS_PER_BOUNDARY) {
        boundary[KIND..].fill(0);
    }
    map
}

fn one_fewer(map: &Map) -> Map {
    let mut map = map.clone();
    map.boundaries.truncate(map.boundaries.len() - NUMBERS_PER_BOUNDARY);
    map
}
