//! The passes run to rest: passes 1, 2 and 3 by turns, until a round removes none.

use crate::entries::flat_mut;
use crate::exported::jenwyllt_run_to_rest;
use crate::partition::Room;
use crate::{Cause, KeptLists, Map, Partition, PartitionLists, Refusal, Region, Row, Sheet};

/// What is left of a map at rest.
#[derive(Debug, Clone, PartialEq)]
pub struct Rested {
    /// The map cut by what is kept: its span k is row k.
    pub partition: Partition,
    /// The record of each region of the partition, that of label 1 first.
    pub records: Vec<Region>,
    /// The boundaries that are kept, ascending by endpoints; numbers are those of the sheet.
    pub rows: Vec<Row>,
    /// How many rounds were run, the last, which removes none, among them.
    pub rounds: u64,
}

/// How many rows are kept, and how many rounds were run.
#[derive(Debug, Clone, Copy, PartialEq, Eq)]
pub struct RestCounts {
    /// Of boundaries that are kept.
    pub kept: u64,
    /// The last, which removes none, among them.
    pub rounds: u64,
}

/// Runs the passes by turns until a round removes none. The pass of the sheet is not looked at.
///
/// Refuses 1 to 3, 16 where spans and boundaries are not one list, and 5 to 9.
///
/// ```
/// // Three cells in a row, cut behind the first and behind the second, where a ramp begins: its mouth goes in the first round.
/// use jenwyllt::{Boundary, Cause, Row, run_to_rest};
///
/// let mouth = Boundary::new([8, 0, 8, 8], 8.0);
/// let foot = Boundary { kind: Boundary::LOWER, ramp: 7, upper: 1, ..Boundary::new([16, 0, 16, 8], 8.0) };
/// let sheet = jenwyllt::Sheet {
///     pass: 0,
///     width: 3,
///     height: 1,
///     cells: vec![1, 1, 1],
///     spans: vec![mouth.span(), foot.span()],
///     boundaries: vec![mouth, foot],
///     anchors: vec![],
/// };
/// let rested = run_to_rest(&sheet).unwrap();
/// assert_eq!((rested.rounds, &rested.rows[..]), (2, &[Row { number: 1, start: foot.start, end: foot.end }][..]));
/// assert_eq!((rested.partition.regions, &rested.partition.labels[..]), (2, &[1, 1, 2][..]));
///
/// let refusal = run_to_rest(&jenwyllt::Sheet { spans: vec![mouth.span(), mouth.span()], ..sheet }).unwrap_err();
/// assert_eq!((refusal.cause(), refusal.place), (Some(Cause::Lists), 1));
/// ```
pub fn run_to_rest(sheet: &Sheet) -> Result<Rested, Refusal> {
    let mut room = Room::new(sheet.cells.len(), sheet.spans.len());
    let mut records = vec![Region::default(); 1 + 2 * sheet.spans.len()];
    let mut rows = vec![Row::default(); sheet.boundaries.len()];
    loop {
        let lists = KeptLists { partition: room.lists(), records: &mut records, output: flat_mut(&mut rows) };
        let answer = run_to_rest_into(sheet.into(), lists);
        if answer.is_err_and(|refusal| refusal.cause() == Some(Cause::Regions)) {
            // The labels are filled, those of the first pass, which has the most regions.
            records = vec![Region::default(); room.regions() as usize];
        } else if !room.grown_for(answer.map(|counts| counts.kept)) {
            let RestCounts { kept, rounds } = answer?;
            rows.truncate(kept as usize);
            let regions = room.regions();
            records.truncate(regions as usize);
            let mut partition = room.filled(regions);
            partition.tallies.truncate(kept as usize);
            return Ok(Rested { partition, records, rows, rounds });
        }
    }
}

/// The same with lists that the caller lends. The pass of the map is not looked at.
///
/// Refuses 10, 11 and 12 too. With 11 the labels are filled, those of the first pass, and masks, queue and tallies are zero; with 12
/// labels and tallies of the first pass are filled, masks and queue are zero, and pairs are zero over the whole list; with any other
/// refusal every list stays as it was. Records and output stay as they were with every refusal.
pub fn run_to_rest_into(map: Map<'_>, lists: KeptLists<'_>) -> Result<RestCounts, Refusal> {
    let Map { pass: _, width, height, cells, spans, boundaries, anchors } = map;
    let KeptLists { partition: PartitionLists { labels, masks, queue, tallies, pairs }, records, output } = lists;
    // SAFETY: each pointer and length is a slice's own, so it is aligned, not null, and valid for that length, for writes where the
    // function fills; slices lent as `&mut` overlap no other, and nothing else uses them before the call returns. `Region` has the
    // layout of the header. The function is proved for lists of any content and length, keeps no pointer and does not unwind.
    let answer = unsafe {
        jenwyllt_run_to_rest(
            width,
            height,
            cells.as_ptr(),
            cells.len(),
            spans.as_ptr(),
            spans.len(),
            boundaries.as_ptr(),
            boundaries.len(),
            anchors.as_ptr(),
            anchors.len(),
            labels.as_mut_ptr(),
            labels.len(),
            masks.as_mut_ptr(),
            masks.len(),
            queue.as_mut_ptr(),
            queue.len(),
            tallies.as_mut_ptr(),
            tallies.len(),
            pairs.as_mut_ptr(),
            pairs.len(),
            records.as_mut_ptr(),
            records.len(),
            output.as_mut_ptr(),
            output.len(),
        )
    };
    match answer.number {
        0 => Ok(RestCounts { kept: answer.value, rounds: answer.rounds }),
        number => Err(Refusal { number, place: answer.value }),
    }
}
