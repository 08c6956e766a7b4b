//! Our libraries on the oracle's maps, through the safe calls of ../bindings/rust.

use jenwyllt::{Cause, KeptLists, PartitionLists, Refusal, Region, RestCounts};
use oracle::sheet::Map;
use oracle::topology::harness::Record;

/// The lists that the caller of a pass lends, made once and used again at each call.
pub struct Lent {
    pub labels: Vec<u32>,
    pub masks: Vec<u16>,
    pub queue: Vec<u32>,
    pub tallies: Vec<u32>,
    pub pairs: Vec<u32>,
    pub records: Vec<Region>,
    pub output: Vec<u64>,
    pub ranked: Vec<u32>,
}

impl Lent {
    pub fn new(map: &Map, regions: usize, pair_rows: usize) -> Self {
        Self {
            labels: vec![0; map.cells.len()],
            masks: vec![0; map.cells.len()],
            queue: vec![0; map.cells.len()],
            tallies: vec![0; map.spans.len() / 2],
            pairs: vec![0; 3 * pair_rows],
            records: vec![Region::default(); regions],
            output: vec![0; 5 * 256],
            ranked: vec![0; 6 * 426],
        }
    }

    fn lists(&mut self) -> KeptLists<'_> {
        let partition = PartitionLists {
            labels: &mut self.labels,
            masks: &mut self.masks,
            queue: &mut self.queue,
            tallies: &mut self.tallies,
            pairs: &mut self.pairs,
        };
        KeptLists { partition, records: &mut self.records, output: &mut self.output }
    }
}

/// A call on a map, with lists lent to it.
pub type Call = fn(&Map, &mut Lent) -> Result<u64, Refusal>;

pub fn partition(map: &Map, lent: &mut Lent) -> Result<u64, Refusal> {
    jenwyllt::partition_into(map.width, map.height, &map.cells, &map.spans, lent.lists().partition)
}

/// Runs the map's pass.
pub fn kept_boundaries(map: &Map, lent: &mut Lent) -> Result<u64, Refusal> {
    call(map, lent.lists())
}

/// Runs pass 3 with its ranked list.
pub fn ranked_junctions(map: &Map, lent: &mut Lent) -> Result<u64, Refusal> {
    let mut ranked = std::mem::take(&mut lent.ranked);
    let answer = jenwyllt::ranked_junctions_into(read(map), lent.lists(), &mut ranked);
    lent.ranked = ranked;
    answer.map(|(kept, _)| kept)
}

/// The same call with one pair row too few: it partitions the map and is refused 12.
pub fn refused(map: &Map, lent: &mut Lent) -> Result<u64, Refusal> {
    let KeptLists { partition, records, output } = lent.lists();
    let short = partition.pairs.len() - 3;
    let partition = PartitionLists { pairs: &mut partition.pairs[..short], ..partition };
    call(map, KeptLists { partition, records, output })
}

fn call(map: &Map, lists: KeptLists) -> Result<u64, Refusal> {
    jenwyllt::kept_boundaries_into(read(map), lists)
}

/// Runs the map's pass and adds the run to an empty report.
pub fn report_run(map: &Map, lent: &mut Lent) -> Result<u64, Refusal> {
    jenwyllt::report_run(&mut jenwyllt::Report::empty(), read(map), lent.lists())
}

/// Runs the passes to rest.
pub fn run_to_rest(map: &Map, lent: &mut Lent) -> Result<RestCounts, Refusal> {
    jenwyllt::run_to_rest_into(read(map), lent.lists())
}

/// Runs the map's pass and plays runner and guard on the kept graph, whose first region is the goal; with more than 32 regions nothing is played.
pub fn runner_and_guard(map: &Map, lent: &mut Lent) -> Result<u64, Refusal> {
    let answer = jenwyllt::runner_and_guard_into(read(map), 1, lent.lists(), &mut vec![0; jenwyllt::VERDICTS_LENGTH]);
    match answer {
        Err(refusal) if refusal.cause() == Some(Cause::Graph) => Ok(0),
        answer => answer.map(|played| played.kept),
    }
}

fn read(map: &Map) -> jenwyllt::Map<'_> {
    jenwyllt::Map {
        pass: map.pass,
        width: map.width,
        height: map.height,
        cells: &map.cells,
        spans: &map.spans,
        boundaries: &map.boundaries,
        anchors: &map.anchors,
    }
}

/// A record as the oracle has it.
pub fn record(region: &Region) -> Record {
    Record {
        cells: region.cells as u64,
        edges: [region.min_x, region.min_y, region.max_x, region.max_y].map(f64::to_bits),
        ramp_cells: region.ramp_cells as u64,
        mask: region.elevations,
        counts: region.elevation_counts.map(|count| count as u64),
    }
}
