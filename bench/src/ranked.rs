//! The call of pass 3 with its ranked list beside the call of pass 3.

use crate::maps::{self, Named};
use crate::ours::{self, Lent};
use crate::timing::{time, timed};
use oracle::sheet::Map;
use oracle::topology::harness::Original;
use std::time::Duration;

pub fn run(budget: Duration, names: &[String]) {
    println!("\npass 3 with its ranked list\n");
    println!(
        "{:<12} {:>9} {:>7} {:>14} {:>10} {:>14} {:>10} {:>7}",
        "", "proposals", "taken", "pass 3 least", "middle", "ranked least", "middle", "ratio"
    );
    for Named { name, map, .. } in maps::all().iter().filter(|named| names.iter().any(|name| name == named.name)) {
        let map = Map { pass: 3, ..map.clone() };
        let original = Original::new(&map);
        let partition = original.partition();
        let pairs = partition.boundaries().iter().map(|entry| entry.region_pairs.len()).sum();
        let list = original.ranking(&original.context(&partition));
        let (mut one, mut other) =
            (Lent::new(&map, partition.areas().len(), pairs), Lent::new(&map, partition.areas().len(), pairs));
        let calls = vec![
            timed(|| ours::kept_boundaries(&map, &mut one).expect("it is accepted")),
            timed(|| ours::ranked_junctions(&map, &mut other).expect("it is accepted")),
        ];
        let times = time(budget, vec![calls]).swap_remove(0);
        assert_eq!(
            other.ranked[..6 * list.len()],
            list.concat().iter().map(|number| *number as u32).collect::<Vec<_>>(),
            "{name}"
        );
        println!(
            "{name:<12} {:>9} {:>7} {:>14.0} {:>10.0} {:>14.0} {:>10.0} {:>7.3}",
            list.len(),
            list.iter().filter(|row| row[4] == 1).count(),
            times[0].least(),
            times[0].middle(),
            times[1].least(),
            times[1].middle(),
            times[1].least() / times[0].least()
        );
    }
}
