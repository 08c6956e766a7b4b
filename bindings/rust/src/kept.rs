//! The boundaries that a pass keeps.

use crate::entries::{flat, flat_mut};
use crate::exported::jenwyllt_kept_boundaries;
use crate::partition::Room;
use crate::{Cause, Partition, PartitionLists, Refusal, Row, Sheet};

/// What a map is read from: as in a [`Sheet`], but the last three lists flat.
#[derive(Debug, Clone, Copy)]
pub struct Map<'a> {
    /// The pass to run: 1 ramp mouths, 2 ramp interiors, 3 junctions.
    pub pass: u64,
    /// In cells.
    pub width: u64,
    /// In cells.
    pub height: u64,
    /// Row by row: 1 for walkable, plus 2 for ramp, plus 4 times the elevation.
    pub cells: &'a [u8],
    /// Four numbers a span.
    pub spans: &'a [u64],
    /// Nine numbers a boundary.
    pub boundaries: &'a [u64],
    /// Two numbers an anchor.
    pub anchors: &'a [u64],
}

impl<'a> From<&'a Sheet> for Map<'a> {
    fn from(sheet: &'a Sheet) -> Self {
        Self {
            pass: sheet.pass,
            width: sheet.width,
            height: sheet.height,
            cells: &sheet.cells,
            spans: flat(&sheet.spans),
            boundaries: flat(&sheet.boundaries),
            anchors: flat(&sheet.anchors),
        }
    }
}

/// The record of a region. The default is the empty record.
#[repr(C)]
#[derive(Debug, Clone, Copy, PartialEq, Default)]
pub struct Region {
    /// How many cells it has.
    pub cells: usize,
    /// Its left edge in pixels.
    pub min_x: f64,
    /// Its upper edge.
    pub min_y: f64,
    /// Its right edge.
    pub max_x: f64,
    /// Its lower edge.
    pub max_y: f64,
    /// How many of its cells are ramps.
    pub ramp_cells: usize,
    /// Bit e says that a cell has elevation e.
    pub elevations: u8,
    /// How many cells have elevation 0, 1, 2 and 3.
    pub elevation_counts: [usize; 4],
}

/// What a pass makes of a map.
#[derive(Debug, Clone, PartialEq)]
pub struct KeptBoundaries {
    /// The map cut by its spans.
    pub partition: Partition,
    /// The record of each region, that of label 1 first.
    pub records: Vec<Region>,
    /// The boundaries that are kept, ascending by endpoints.
    pub rows: Vec<Row>,
}

/// The lists that [`kept_boundaries_into`] fills. What they hold before does not matter, and each may be longer than needed.
#[derive(Debug)]
pub struct KeptLists<'a> {
    /// As for the partition alone.
    pub partition: PartitionLists<'a>,
    /// One a region.
    pub records: &'a mut [Region],
    /// Five a boundary.
    pub output: &'a mut [u64],
}

/// Cuts a map by its spans and runs the pass that the sheet names. Where there are not as many boundaries as spans, all are kept.
///
/// Refuses 1 to 9.
///
/// ```
/// // Three cells in a row, cut behind the first and behind the second, where a ramp begins: its mouth goes.
/// use jenwyllt::{Boundary, Row};
///
/// let mouth = Boundary::new([8, 0, 8, 8], 8.0);
/// let foot = Boundary { kind: Boundary::LOWER, ramp: 7, upper: 1, ..Boundary::new([16, 0, 16, 8], 8.0) };
/// let sheet = jenwyllt::Sheet {
///     pass: 1,
///     width: 3,
///     height: 1,
///     cells: vec![1, 1, 1],
///     spans: vec![mouth.span(), foot.span()],
///     boundaries: vec![mouth, foot],
///     anchors: vec![],
/// };
/// let kept = jenwyllt::kept_boundaries(&sheet).unwrap();
/// assert_eq!(kept.rows, [Row { number: 1, start: foot.start, end: foot.end }]);
/// assert_eq!(kept.partition.labels, [1, 2, 3]);
/// assert_eq!((kept.records[2].cells, kept.records[2].min_x, kept.records[2].max_x), (1, 16.0, 24.0));
///
/// let refusal = jenwyllt::kept_boundaries(&jenwyllt::Sheet { pass: 4, ..sheet }).unwrap_err();
/// assert_eq!((refusal.number, refusal.place), (4, 0));
/// ```
pub fn kept_boundaries(sheet: &Sheet) -> Result<KeptBoundaries, Refusal> {
    let mut room = Room::new(sheet.cells.len(), sheet.spans.len());
    let mut records = vec![Region::default(); 1 + 2 * sheet.spans.len()];
    let mut rows = vec![Row::default(); sheet.boundaries.len()];
    loop {
        let lists = KeptLists { partition: room.lists(), records: &mut records, output: flat_mut(&mut rows) };
        let answer = kept_boundaries_into(sheet.into(), lists);
        if answer.is_err_and(|refusal| refusal.cause() == Some(Cause::Regions)) {
            // The labels are filled.
            records = vec![Region::default(); room.regions() as usize];
        } else if !room.grown_for(answer) {
            rows.truncate(answer? as usize);
            let regions = room.regions();
            records.truncate(regions as usize);
            return Ok(KeptBoundaries { partition: room.filled(regions), records, rows });
        }
    }
}

/// The same with lists that the caller lends; answers how many rows are kept.
///
/// Refuses 10, 11 and 12 too. With 11 the labels are filled, masks, queue and tallies are zero; with 12 labels and tallies are
/// filled, masks and queue are zero, and pairs are zero over the whole list; with any other refusal every list stays as it was.
/// Records and output stay as they were with every refusal.
///
/// ```
/// use jenwyllt::{KeptLists, Map, PartitionLists, Region, kept_boundaries_into};
///
/// let width = 8f64.to_bits();
/// let boundaries = [8, 0, 8, 8, width, 0, 0, 0, 0, 16, 0, 16, 8, width, 1, 7, 0, 1];
/// let (cells, spans) = ([1; 3], [8, 0, 8, 8, 16, 0, 16, 8]);
/// let map = Map { pass: 1, width: 3, height: 1, cells: &cells, spans: &spans, boundaries: &boundaries, anchors: &[] };
/// let (mut records, mut output) = ([Region::default(); 3], [9; 10]);
/// let lists = KeptLists {
///     partition: PartitionLists {
///         labels: &mut [0; 3],
///         masks: &mut [0; 3],
///         queue: &mut [0; 3],
///         tallies: &mut [0; 4],
///         pairs: &mut [0; 6],
///     },
///     records: &mut records,
///     output: &mut output,
/// };
/// assert_eq!(kept_boundaries_into(map, lists), Ok(1));
/// assert_eq!(output, [1, 16, 0, 16, 8, 9, 9, 9, 9, 9]);
/// assert_eq!(records[1].elevation_counts, [1, 0, 0, 0]);
/// ```
pub fn kept_boundaries_into(map: Map<'_>, lists: KeptLists<'_>) -> Result<u64, Refusal> {
    let Map { pass, width, height, cells, spans, boundaries, anchors } = map;
    let KeptLists { partition: PartitionLists { labels, masks, queue, tallies, pairs }, records, output } = lists;
    // SAFETY: each pointer and length is a slice's own, so it is aligned, not null, and valid for that length, for writes where the
    // function fills; slices lent as `&mut` overlap no other, and nothing else uses them before the call returns. `Region` has the
    // layout of the header. The function is proved for lists of any content and length, keeps no pointer and does not unwind.
    let answer = unsafe {
        jenwyllt_kept_boundaries(
            pass,
            width,
            height,
            cells.as_ptr(),
            cells.len(),
            spans.as_ptr(),
            spans.len(),
            boundaries.as_ptr(),
            boundaries.len(),
            anchors.as_ptr(),
            anchors.len(),
            labels.as_mut_ptr(),
            labels.len(),
            masks.as_mut_ptr(),
            masks.len(),
            queue.as_mut_ptr(),
            queue.len(),
            tallies.as_mut_ptr(),
            tallies.len(),
            pairs.as_mut_ptr(),
            pairs.len(),
            records.as_mut_ptr(),
            records.len(),
            output.as_mut_ptr(),
            output.len(),
        )
    };
    answer.result()
}
