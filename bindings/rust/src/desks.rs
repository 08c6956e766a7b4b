//! Two desks over one partition.

use crate::exported::jenwyllt_two_desks;
use crate::{PartitionLists, Refusal, Region};

/// Which desk goes first. It shows in no answer and in no list.
#[derive(Debug, Clone, Copy, PartialEq, Eq, Default)]
pub enum Order {
    /// The route desk.
    #[default]
    RouteFirst,
    /// The coaching desk.
    CoachingFirst,
}

/// What both desks share: a map as in [`crate::Map`], without a pass, boundaries and anchors.
#[derive(Debug, Clone, Copy)]
pub struct Terrain<'a> {
    /// In cells.
    pub width: u64,
    /// In cells.
    pub height: u64,
    /// Row by row: 1 for walkable, plus 2 for ramp, plus 4 times the elevation.
    pub cells: &'a [u8],
    /// Four numbers a span.
    pub spans: &'a [u64],
}

/// What one desk lends: its pass, boundaries (nine numbers each) and anchors (two each), and its output, five numbers a boundary.
#[derive(Debug)]
pub struct DeskLists<'a> {
    /// The pass to run: 1 ramp mouths, 2 ramp interiors, 3 junctions.
    pub pass: u64,
    /// Nine numbers a boundary. Boundary i is span i, whichever endpoint comes first.
    pub boundaries: &'a [u64],
    /// Two numbers an anchor.
    pub anchors: &'a [u64],
    /// Filled where the desk is accepted.
    pub output: &'a mut [u64],
}

/// How many rows each desk keeps, or why not.
#[derive(Debug, Clone, Copy, PartialEq, Eq)]
pub struct DesksAnswer {
    /// To the route desk.
    pub route: Result<u64, Refusal>,
    /// To the coaching desk.
    pub coaching: Result<u64, Refusal>,
}

/// Cuts a map by its spans once, then runs both desks over the regions, in this order. Neither sees the other: a desk that is
/// accepted has the rows of [`crate::kept_boundaries_into`] with its lists alone.
///
/// A refusal of the shared lists (1, 2, 3, 5, 6, 9, 10, 11, 12) goes to both desks. One of a desk's own (3, 4, 7, 20, 8, 10) goes to
/// it alone, with the shared lists as on success and its output as it was.
///
/// ```
/// use jenwyllt::{DeskLists, Order, PartitionLists, Refusal, Region, Terrain, two_desks_into};
///
/// let width = 8f64.to_bits();
/// let boundaries = [8, 0, 8, 8, width, 0, 0, 0, 0, 16, 0, 16, 8, width, 1, 7, 0, 1];
/// let (cells, spans) = ([1; 3], [8, 8, 8, 0, 16, 0, 16, 8]);
/// let terrain = Terrain { width: 3, height: 1, cells: &cells, spans: &spans };
/// let (mut first, mut second) = ([9; 10], [9; 10]);
/// let lists = PartitionLists {
///     labels: &mut [0; 3],
///     masks: &mut [0; 3],
///     queue: &mut [0; 3],
///     tallies: &mut [0; 4],
///     pairs: &mut [0; 6],
/// };
/// let route = DeskLists { pass: 1, boundaries: &boundaries, anchors: &[], output: &mut first };
/// let coaching = DeskLists { pass: 1, boundaries: &boundaries[..9], anchors: &[], output: &mut second };
/// let answer = two_desks_into(Order::RouteFirst, terrain, route, coaching, lists, &mut [Region::default(); 3]);
/// assert_eq!(answer.route, Ok(1));
/// assert_eq!(answer.coaching, Err(Refusal { number: 20, place: 1 }));
/// assert_eq!(first, [1, 16, 0, 16, 8, 9, 9, 9, 9, 9]);
/// assert_eq!(second, [9; 10]);
/// ```
pub fn two_desks_into(
    order: Order,
    terrain: Terrain<'_>,
    route: DeskLists<'_>,
    coaching: DeskLists<'_>,
    partition: PartitionLists<'_>,
    records: &mut [Region],
) -> DesksAnswer {
    let Terrain { width, height, cells, spans } = terrain;
    let PartitionLists { labels, masks, queue, tallies, pairs } = partition;
    // SAFETY: each pointer and length is a slice's own, so it is aligned, not null, and valid for that length, for writes where the
    // function fills; slices lent as `&mut` overlap no other, and nothing else uses them before the call returns. `Region` has the
    // layout of the header. The function is proved for lists of any content and length, keeps no pointer and does not unwind.
    let answer = unsafe {
        jenwyllt_two_desks(
            u64::from(order == Order::CoachingFirst),
            width,
            height,
            cells.as_ptr(),
            cells.len(),
            spans.as_ptr(),
            spans.len(),
            route.pass,
            route.boundaries.as_ptr(),
            route.boundaries.len(),
            route.anchors.as_ptr(),
            route.anchors.len(),
            coaching.pass,
            coaching.boundaries.as_ptr(),
            coaching.boundaries.len(),
            coaching.anchors.as_ptr(),
            coaching.anchors.len(),
            labels.as_mut_ptr(),
            labels.len(),
            masks.as_mut_ptr(),
            masks.len(),
            queue.as_mut_ptr(),
            queue.len(),
            tallies.as_mut_ptr(),
            tallies.len(),
            pairs.as_mut_ptr(),
            pairs.len(),
            records.as_mut_ptr(),
            records.len(),
            route.output.as_mut_ptr(),
            route.output.len(),
            coaching.output.as_mut_ptr(),
            coaching.output.len(),
        )
    };
    DesksAnswer { route: answer.route.result(), coaching: answer.coaching.result() }
}
