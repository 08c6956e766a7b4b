//! The ranked junction list: the greedy choice of pass 3, step by step.

use crate::entries::flat_mut;
use crate::exported::jenwyllt_ranked_junctions;
use crate::partition::Room;
use crate::{Cause, KeptBoundaries, KeptLists, Map, PartitionLists, Refusal, Region, Row, Sheet};

/// The most proposals that a map can have: 256 unions and 170 bridges.
const MOST_PROPOSALS: usize = 426;
/// Numbers of a row of the list.
const RANKED_NUMBERS: usize = 6;

/// A proposal of pass 3 that reached the ranking. Its rank is its place in the list, from 0.
#[derive(Debug, Clone, Copy, PartialEq, Eq, Hash)]
pub struct RankedProposal {
    /// Whether it is a bridge; it is a union otherwise.
    pub bridge: bool,
    /// The boundary that it would remove.
    pub boundary: u32,
    /// Of a union its pair, the smaller first; of a bridge its pocket and the exterior.
    pub regions: [u32; 2],
    /// The rank of the earliest taken proposal that it conflicts with; none where it was taken.
    pub refused_by: Option<u32>,
}

impl RankedProposal {
    /// Whether it was taken.
    pub fn taken(&self) -> bool {
        self.refused_by.is_none()
    }
}

/// What pass 3 makes of a map, and the proposals that it chose from.
#[derive(Debug, Clone, PartialEq)]
pub struct RankedJunctions {
    /// As [`kept_boundaries`](crate::kept_boundaries) with pass 3 has it.
    pub kept: KeptBoundaries,
    /// In rank order.
    pub proposals: Vec<RankedProposal>,
}

/// Cuts a map by its spans and runs pass 3, whatever pass the sheet names, with its ranked list. Where there are not as many
/// boundaries as spans, nothing is proposed.
///
/// Refuses 1 to 3 and 5 to 9.
///
/// ```
/// // Case J: the boundary between the two inner cells is removed.
/// let ends = [[16, 8, 16, 16], [8, 8, 8, 16], [8, 8, 16, 8], [24, 8, 24, 16], [16, 16, 24, 16]];
/// let boundaries = ends.map(|ends| jenwyllt::Boundary::new(ends, 8.0)).to_vec();
/// let sheet = jenwyllt::Sheet {
///     pass: 3,
///     width: 4,
///     height: 3,
///     cells: vec![0, 1, 0, 0, 1, 1, 1, 1, 0, 0, 1, 0],
///     spans: boundaries.iter().map(jenwyllt::Boundary::span).collect(),
///     boundaries,
///     anchors: vec![],
/// };
/// let ranked = jenwyllt::ranked_junctions(&sheet).unwrap();
/// assert_eq!(ranked.proposals.len(), 1);
/// assert!(ranked.proposals[0].taken() && !ranked.proposals[0].bridge);
/// assert_eq!((ranked.proposals[0].boundary, ranked.proposals[0].regions), (0, [3, 4]));
/// assert_eq!(ranked.kept, jenwyllt::kept_boundaries(&sheet).unwrap());
/// ```
pub fn ranked_junctions(sheet: &Sheet) -> Result<RankedJunctions, Refusal> {
    let mut room = Room::new(sheet.cells.len(), sheet.spans.len());
    let mut records = vec![Region::default(); 1 + 2 * sheet.spans.len()];
    let mut rows = vec![Row::default(); sheet.boundaries.len()];
    let mut ranked = vec![0; RANKED_NUMBERS * MOST_PROPOSALS];
    loop {
        let lists = KeptLists { partition: room.lists(), records: &mut records, output: flat_mut(&mut rows) };
        let answer = ranked_junctions_into(sheet.into(), lists, &mut ranked);
        let kept = answer.map(|(kept, _)| kept);
        if kept.is_err_and(|refusal| refusal.cause() == Some(Cause::Regions)) {
            // The labels are filled.
            records = vec![Region::default(); room.regions() as usize];
        } else if !room.grown_for(kept) {
            let (kept, proposals) = answer?;
            rows.truncate(kept as usize);
            let regions = room.regions();
            records.truncate(regions as usize);
            let kept = KeptBoundaries { partition: room.filled(regions), records, rows };
            let proposals = ranked.chunks(RANKED_NUMBERS).take(proposals as usize).map(proposal).collect();
            return Ok(RankedJunctions { kept, proposals });
        }
    }
}

fn proposal(numbers: &[u32]) -> RankedProposal {
    let [kind, boundary, first, second, taken, by] = *numbers else { unreachable!("six numbers") };
    let refused_by = if taken == 1 { None } else { Some(by) };
    RankedProposal { bridge: kind == 1, boundary, regions: [first, second], refused_by }
}

/// The same with lists that the caller lends; answers how many rows are kept and how many proposals there are. The pass of the map
/// is not read. The list of proposals has six numbers each: kind (0 a union, 1 a bridge), boundary, two regions, 1 where it was taken,
/// and the rank of what it was refused by.
///
/// Refuses 10, 11, 12 and 21 too. With 21 the list of proposals is zero over its whole length, the output stays as it was, and the
/// other lists are as on success; with any other refusal the list of proposals stays as it was, and the others are as
/// [`kept_boundaries_into`](crate::kept_boundaries_into) leaves them.
pub fn ranked_junctions_into(map: Map<'_>, lists: KeptLists<'_>, ranked: &mut [u32]) -> Result<(u64, u64), Refusal> {
    let Map { pass: _, width, height, cells, spans, boundaries, anchors } = map;
    let KeptLists { partition: PartitionLists { labels, masks, queue, tallies, pairs }, records, output } = lists;
    // SAFETY: each pointer and length is a slice's own, so it is aligned, not null, and valid for that length, for writes where the
    // function fills; slices lent as `&mut` overlap no other, and nothing else uses them before the call returns. `Region` has the
    // layout of the header. The function is proved for lists of any content and length, keeps no pointer and does not unwind.
    let answer = unsafe {
        jenwyllt_ranked_junctions(
            width,
            height,
            cells.as_ptr(),
            cells.len(),
            spans.as_ptr(),
            spans.len(),
            boundaries.as_ptr(),
            boundaries.len(),
            anchors.as_ptr(),
            anchors.len(),
            labels.as_mut_ptr(),
            labels.len(),
            masks.as_mut_ptr(),
            masks.len(),
            queue.as_mut_ptr(),
            queue.len(),
            tallies.as_mut_ptr(),
            tallies.len(),
            pairs.as_mut_ptr(),
            pairs.len(),
            records.as_mut_ptr(),
            records.len(),
            output.as_mut_ptr(),
            output.len(),
            ranked.as_mut_ptr(),
            ranked.len(),
        )
    };
    match answer.number {
        0 => Ok((answer.value, answer.proposals)),
        number => Err(Refusal { number, place: answer.value }),
    }
}
