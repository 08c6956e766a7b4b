//! Runs the copied files on a map as lent and collects all that document 01 asks of a call. A boundary carries its number in
//! `sources`, which the Rust hands on unread.

use super::context::PartitionContext;
use super::{RampBoundary, RampSide, TopologyBase, TopologyBoundary};
use super::{junctions, ramp_boundaries, watched_junctions};
use crate::sheet::{ANCHOR_NUMBERS, BOUNDARY_NUMBERS, Map, Refusal, SPAN_NUMBERS};
use crate::{BoundarySpan, PixelPosition, SpanPartition, TerrainCell, TerrainGrid, WalkPosition, table};

/// How many region records and pair rows the caller lends.
#[derive(Debug, Clone, Copy)]
pub struct Room {
    pub records: Option<usize>,
    pub pairs: Option<usize>,
}

impl Room {
    pub const UNLIMITED: Self = Self { records: None, pairs: None };
}

#[derive(Debug, Clone, PartialEq, Eq)]
pub struct Record {
    pub cells: u64,
    /// The bits of min_x, min_y, max_x, max_y.
    pub edges: [u64; 4],
    /// Counted here, from the Rust's labels and the cells: the Rust has a flag, which must say the same.
    pub ramp_cells: u64,
    pub mask: u8,
    pub counts: [u64; 4],
}

/// What partitioning fills.
#[derive(Debug, Clone, PartialEq, Eq)]
pub struct Partition {
    pub labels: Vec<u32>,
    pub regions: usize,
    pub tallies: Vec<[u32; 2]>,
    pub pairs: Vec<[u32; 3]>,
}

/// What a call that runs a pass fills.
#[derive(Debug, Clone, PartialEq, Eq)]
pub struct Kept {
    pub partition: Partition,
    pub records: Vec<Record>,
    pub rows: Vec<[u64; 5]>,
}

#[derive(Debug, Clone, PartialEq, Eq)]
pub enum Answer<T> {
    Done(T),
    /// Number 11 or 12: the labels are filled, for 12 the tallies too.
    Short(u64, Partition),
    Refused(Refusal),
}

/// The call that runs the map's pass.
pub fn run(map: &Map, room: Room) -> Answer<Kept> {
    if let Err(refusal) = table::check_pass(map) {
        return Answer::Refused(refusal);
    }
    let original = Original::new(map);
    let partitioned = original.partition();
    let partition = flattened(&partitioned);
    if exceeds(partition.regions, room.records) {
        return Answer::Short(11, partition);
    }
    if exceeds(partition.pairs.len(), room.pairs) {
        return Answer::Short(12, partition);
    }
    let context = original.context(&partitioned);
    let rows = original.pass(map.pass, &context).iter().map(row).collect();
    Answer::Done(Kept { records: records(&context), partition, rows })
}

/// The call of pass 3 with its ranked list, whatever pass the map has; the list has room for all.
pub fn ranked(map: &Map, room: Room) -> Answer<(Kept, Vec<[u64; 6]>)> {
    let map = Map { pass: 3, ..map.clone() };
    match run(&map, room) {
        Answer::Done(kept) => {
            let original = Original::new(&map);
            let list = original.ranking(&original.context(&original.partition()));
            Answer::Done((kept, list))
        }
        Answer::Short(number, partition) => Answer::Short(number, partition),
        Answer::Refused(refusal) => Answer::Refused(refusal),
    }
}

/// Partitioning alone.
pub fn partition(map: &Map, room: Room) -> Answer<Partition> {
    if let Err(refusal) = table::check_partition(map) {
        return Answer::Refused(refusal);
    }
    let partition = flattened(&Original::of_cells_and_spans(map).partition());
    if exceeds(partition.pairs.len(), room.pairs) {
        return Answer::Short(12, partition);
    }
    Answer::Done(partition)
}

fn exceeds(needed: usize, lent: Option<usize>) -> bool {
    lent.is_some_and(|lent| needed > lent)
}

/// A checked map in the Rust's own types, and the Rust's steps on it, one by one.
pub struct Original {
    grid: TerrainGrid,
    spans: Vec<BoundarySpan>,
    boundaries: Vec<TopologyBoundary>,
    bases: Vec<TopologyBase>,
}

/// The Rust's context, which is not public there.
pub struct Context<'a>(PartitionContext<'a>);

impl Original {
    pub fn new(map: &Map) -> Self {
        Self { boundaries: boundaries(map), bases: bases(map), ..Self::of_cells_and_spans(map) }
    }

    fn of_cells_and_spans(map: &Map) -> Self {
        Self { grid: grid(map), spans: spans(map), boundaries: Vec::new(), bases: Vec::new() }
    }

    pub fn partition(&self) -> SpanPartition {
        self.grid.partition_by_spans(&self.spans).expect("checks 3, 5 and 6 passed")
    }

    pub fn context<'a>(&'a self, partition: &'a SpanPartition) -> Context<'a> {
        Context(PartitionContext::new(&self.grid, partition, &self.bases))
    }

    pub fn pass(&self, number: u64, context: &Context<'_>) -> Vec<TopologyBoundary> {
        match number {
            1 => ramp_boundaries::replace_ramp_mouths(&self.boundaries, &context.0),
            2 => ramp_boundaries::collapse_ramp_interiors(&self.boundaries, &context.0),
            3 => junctions::remove_junction_boundaries(&self.boundaries, &context.0),
            _ => unreachable!("check 4 passed"),
        }
    }

    /// The ranked list, by the copy that is watched; what it keeps must be what pass 3 keeps.
    pub fn ranking(&self, context: &Context<'_>) -> Vec<[u64; 6]> {
        let (kept, list) = watched_junctions::ranking::rows(&self.boundaries, &context.0);
        assert_eq!(kept, self.pass(3, context), "the watched copy keeps what the other does");
        list
    }
}

fn grid(map: &Map) -> TerrainGrid {
    let cells =
        map.cells.iter().map(|cell| TerrainCell { walkable: cell & 1 != 0, ramp: cell & 2 != 0, elevation: cell >> 2 }).collect();
    TerrainGrid::new(map.width as u32, map.height as u32, cells)
}

fn spans(map: &Map) -> Vec<BoundarySpan> {
    map.spans.chunks(SPAN_NUMBERS).map(|span| BoundarySpan { endpoints: endpoints(span) }).collect()
}

fn endpoints(numbers: &[u64]) -> [PixelPosition; 2] {
    let position = |x: u64, y: u64| PixelPosition { x: x as u32, y: y as u32 };
    [position(numbers[0], numbers[1]), position(numbers[2], numbers[3])]
}

fn boundaries(map: &Map) -> Vec<TopologyBoundary> {
    let boundary = |(number, entry): (usize, &[u64])| TopologyBoundary {
        endpoints: endpoints(entry),
        width_pixels: f64::from_bits(entry[4]),
        sources: vec![[number as u32, 0]],
        observations: Vec::new(),
        ramp: side(entry[5]).map(|end| RampBoundary {
            id: entry[6] as u32,
            end,
            lower_elevation: entry[7] as u8,
            upper_elevation: entry[8] as u8,
        }),
    };
    map.boundaries.chunks(BOUNDARY_NUMBERS).enumerate().map(boundary).collect()
}

fn side(kind: u64) -> Option<RampSide> {
    match kind {
        0 => None,
        1 => Some(RampSide::Lower),
        2 => Some(RampSide::Upper),
        _ => unreachable!("check 7 passed"),
    }
}

fn bases(map: &Map) -> Vec<TopologyBase> {
    let base = |(id, anchor): (usize, &[u64])| TopologyBase {
        id: id as u32,
        route_anchor: Some(WalkPosition { x: anchor[0] as u32, y: anchor[1] as u32 }),
    };
    map.anchors.chunks(ANCHOR_NUMBERS).enumerate().map(base).collect()
}

fn flattened(partition: &SpanPartition) -> Partition {
    let boundaries = partition.boundaries();
    Partition {
        labels: partition.labels().to_vec(),
        regions: partition.areas().len(),
        tallies: boundaries.iter().map(|entry| [entry.removed_edge_count, entry.separated_edge_count]).collect(),
        pairs: boundaries
            .iter()
            .enumerate()
            .flat_map(|(span, entry)| entry.region_pairs.iter().map(move |pair| [span as u32, pair[0], pair[1]]))
            .collect(),
    }
}

/// The record of each region, that of label 1 first.
pub fn records(Context(context): &Context<'_>) -> Vec<Record> {
    let labels = context.stats.keys().copied();
    assert!(labels.eq(1..=context.partition.areas().len() as u32), "every region has cells");
    let ramps = ramp_cells(context);
    let record = |(label, stats): (&u32, &super::context::RegionStats)| {
        let ramp_cells = ramps[*label as usize];
        assert_eq!(ramp_cells > 0, stats.has_ramp, "the flag is a count above zero");
        Record {
            cells: stats.cells as u64,
            edges: [stats.min_x, stats.min_y, stats.max_x, stats.max_y].map(f64::to_bits),
            ramp_cells,
            mask: stats.elevations,
            counts: stats.elevation_counts.map(|count| count as u64),
        }
    };
    context.stats.iter().map(record).collect()
}

/// By label, how many cells with the ramp bit have it; label 0 is of the cells that are not walkable.
fn ramp_cells(context: &PartitionContext<'_>) -> Vec<u64> {
    let mut counts = vec![0; context.partition.areas().len() + 1];
    for (label, cell) in context.partition.labels().iter().zip(context.grid.cells()) {
        counts[*label as usize] += u64::from(cell.ramp);
    }
    counts
}

/// A kept boundary's number and canonical endpoints.
pub fn row(boundary: &TopologyBoundary) -> [u64; 5] {
    let [[number, _]] = boundary.sources[..] else { panic!("a boundary keeps its sources") };
    let [a, b] = boundary.endpoints;
    [number, a.x, a.y, b.x, b.y].map(u64::from)
}
