//! The regions of a map cut by spans.

use crate::entries::{flat, flat_mut};
use crate::exported::jenwyllt_partition;
use crate::{Cause, Pair, Refusal, Span, Tally};

/// What a map is cut into.
#[derive(Debug, Clone, PartialEq, Eq)]
pub struct Partition {
    /// How many regions there are.
    pub regions: u64,
    /// The region of each cell, row by row, from 1 in the order of their first cells; 0 where a cell is not walkable.
    pub labels: Vec<u32>,
    /// One a span.
    pub tallies: Vec<Tally>,
    /// Ascending, each pair of a span once.
    pub pairs: Vec<Pair>,
}

/// The lists that [`partition_into`] fills. What they hold before does not matter, and each may be longer than needed.
#[derive(Debug)]
pub struct PartitionLists<'a> {
    /// One a cell.
    pub labels: &'a mut [u32],
    /// One a cell: room to work in, zero afterwards.
    pub masks: &'a mut [u16],
    /// One a cell: room to work in, zero afterwards.
    pub queue: &'a mut [u32],
    /// Two a span.
    pub tallies: &'a mut [u32],
    /// Rows of three. Rows that are not needed stay as they were.
    pub pairs: &'a mut [u32],
}

/// Cuts a map by spans. A cell is one byte, odd where it is walkable, and 8 by 8 pixels; spans are in pixels.
///
/// Refuses 1, 2, 3, 5 and 6.
///
/// ```
/// // Three cells in a row, cut behind the first.
/// use jenwyllt::{Cause, Pair, Tally, partition};
///
/// let cut = partition(3, 1, &[1, 1, 1], &[[8, 0, 8, 8].into()]).unwrap();
/// assert_eq!(cut.regions, 2);
/// assert_eq!(cut.labels, [1, 2, 2]);
/// assert_eq!(cut.tallies, [Tally { removed: 1, separated: 1 }]);
/// assert_eq!(cut.pairs, [Pair { span: 0, smaller: 1, larger: 2 }]);
///
/// let refusal = partition(3, 1, &[1, 1, 1], &[[8, 0, 8, 8].into(), [8, 0, 8, 9].into()]).unwrap_err();
/// assert_eq!((refusal.cause(), refusal.place), (Some(Cause::SpanOutside), 1));
/// ```
pub fn partition(width: u64, height: u64, cells: &[u8], spans: &[Span]) -> Result<Partition, Refusal> {
    let mut room = Room::new(cells.len(), spans.len());
    loop {
        let answer = partition_into(width, height, cells, flat(spans), room.lists());
        if !room.grown_for(answer) {
            return answer.map(|regions| room.filled(regions));
        }
    }
}

/// A partition to be filled, and the lists to work in.
pub(crate) struct Room {
    partition: Partition,
    masks: Vec<u16>,
    queue: Vec<u32>,
}

impl Room {
    /// As much as a map of so many cells and spans needs, but for pairs: of these there is room for two a span.
    pub(crate) fn new(cells: usize, spans: usize) -> Self {
        let partition = Partition {
            regions: 0,
            labels: vec![0; cells],
            tallies: vec![Tally::default(); spans],
            pairs: vec![Pair::default(); 2 * spans],
        };
        Self { partition, masks: vec![0; cells], queue: vec![0; cells] }
    }

    pub(crate) fn lists(&mut self) -> PartitionLists<'_> {
        PartitionLists {
            labels: &mut self.partition.labels,
            masks: &mut self.masks,
            queue: &mut self.queue,
            tallies: flat_mut(&mut self.partition.tallies),
            pairs: flat_mut(&mut self.partition.pairs),
        }
    }

    /// Whether it was for want of pair rows that a call was refused, of which there are enough now.
    pub(crate) fn grown_for(&mut self, answer: Result<u64, Refusal>) -> bool {
        let short = answer.is_err_and(|refusal| refusal.cause() == Some(Cause::Pairs));
        if short {
            // The tallies are filled, and a span has at most one pair for each step that joins two regions.
            let most = self.partition.tallies.iter().map(|tally| tally.separated as usize).sum();
            self.partition.pairs = vec![Pair::default(); most];
        }
        short
    }

    /// The highest label.
    pub(crate) fn regions(&self) -> u64 {
        self.partition.labels.iter().copied().max().unwrap_or(0).into()
    }

    pub(crate) fn filled(mut self, regions: u64) -> Partition {
        self.partition.regions = regions;
        // No label of a pair is 0, so a row that stayed zero stands behind the last.
        let rows = self.partition.pairs.partition_point(|pair| pair.smaller != 0);
        self.partition.pairs.truncate(rows);
        self.partition
    }
}

/// The same with lists that the caller lends, four numbers a span; answers how many regions there are.
///
/// Refuses 10 and 12 too. With 12 the labels and tallies are filled, masks and queue are zero, and pairs are zero over the whole
/// list; with any other refusal every list stays as it was.
///
/// ```
/// use jenwyllt::{PartitionLists, partition_into};
///
/// let (mut labels, mut masks, mut queue) = ([0; 3], [0; 3], [0; 3]);
/// let (mut tallies, mut pairs) = ([0; 2], [9; 6]);
/// let lists = PartitionLists {
///     labels: &mut labels,
///     masks: &mut masks,
///     queue: &mut queue,
///     tallies: &mut tallies,
///     pairs: &mut pairs,
/// };
/// assert_eq!(partition_into(3, 1, &[1, 1, 1], &[8, 0, 8, 8], lists), Ok(2));
/// assert_eq!(labels, [1, 2, 2]);
/// assert_eq!(pairs, [0, 1, 2, 9, 9, 9]);
/// ```
pub fn partition_into(width: u64, height: u64, cells: &[u8], spans: &[u64], lists: PartitionLists<'_>) -> Result<u64, Refusal> {
    let PartitionLists { labels, masks, queue, tallies, pairs } = lists;
    // SAFETY: each pointer and length is a slice's own, so it is aligned, not null, and valid for that length, for writes where the
    // function fills; slices lent as `&mut` overlap no other, and nothing else uses them before the call returns. The function is
    // proved for lists of any content and length, keeps no pointer and does not unwind.
    let answer = unsafe {
        jenwyllt_partition(
            width,
            height,
            cells.as_ptr(),
            cells.len(),
            spans.as_ptr(),
            spans.len(),
            labels.as_mut_ptr(),
            labels.len(),
            masks.as_mut_ptr(),
            masks.len(),
            queue.as_mut_ptr(),
            queue.len(),
            tallies.as_mut_ptr(),
            tallies.len(),
            pairs.as_mut_ptr(),
            pairs.len(),
        )
    };
    answer.result()
}
