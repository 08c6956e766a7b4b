//! Two desks over one partition beside two calls of a pass.

use crate::PASSES;
use crate::maps::{self, Named};
use crate::ours::{Lent, kept_boundaries};
use crate::timing::{Timed, time, timed};
use jenwyllt::{DeskLists, DesksAnswer, Order, PartitionLists, Terrain, two_desks_into};
use oracle::sheet::Map;
use oracle::topology::harness::Original;
use std::time::Duration;

/// Both desks with the lists of the map.
pub fn two_desks(map: &Map, lent: &mut Lent, second: &mut [u64]) -> DesksAnswer {
    let partition = PartitionLists {
        labels: &mut lent.labels,
        masks: &mut lent.masks,
        queue: &mut lent.queue,
        tallies: &mut lent.tallies,
        pairs: &mut lent.pairs,
    };
    let terrain = Terrain { width: map.width, height: map.height, cells: &map.cells, spans: &map.spans };
    let route = DeskLists { pass: map.pass, boundaries: &map.boundaries, anchors: &map.anchors, output: &mut lent.output };
    let coaching = DeskLists { pass: map.pass, boundaries: &map.boundaries, anchors: &map.anchors, output: second };
    two_desks_into(Order::RouteFirst, terrain, route, coaching, partition, &mut lent.records)
}

/// Of the maps that are named, or of all.
pub fn run(budget: Duration, names: &[String]) {
    println!("microseconds of processor time, least of many runs");
    let wanted = |named: &&Named| names.is_empty() || names.iter().any(|name| name == named.name);
    maps::all().iter().filter(wanted).for_each(|named| compare(named, budget));
}

fn compare(Named { name, map, .. }: &Named, budget: Duration) {
    let original = Original::new(map);
    let partition = original.partition();
    let regions = partition.areas().len();
    let pairs: usize = partition.boundaries().iter().map(|entry| entry.region_pairs.len()).sum();
    for pass in PASSES {
        let map = Map { pass, ..map.clone() };
        let (mut first, mut second, mut output) =
            (Lent::new(&map, regions, pairs), Lent::new(&map, regions, pairs), vec![0; 5 * 256]);
        let kept = kept_boundaries(&map, &mut first);
        let both = two_desks(&map, &mut second, &mut output);
        assert!(kept.is_ok() && both.route == kept && both.coaching == kept, "{kept:?} {both:?}");
        assert!(second.output == first.output && output == first.output && second.labels == first.labels);
        let calls: Vec<Timed<'_>> = vec![
            timed(|| (kept_boundaries(&map, &mut first), kept_boundaries(&map, &mut first))),
            timed(|| two_desks(&map, &mut second, &mut output)),
        ];
        let times = time(budget, vec![calls]).swap_remove(0);
        println!(
            "{name} pass {pass}: two calls {:.0}, two desks {:.0}, ratio {:.2}",
            times[0].least(),
            times[1].least(),
            times[1].least() / times[0].least()
        );
    }
}
