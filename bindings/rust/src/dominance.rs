//! The share behind dominance.

use crate::Region;
use crate::exported::jenwyllt_dominance;

/// How much of a region its most common elevation has: `count * 100 == percent * cells + remainder`, and `remainder < cells`.
#[derive(Clone, Copy, Debug, PartialEq, Eq)]
pub struct Share {
    /// The whole percent, rounded down.
    pub percent: u64,
    /// What is left.
    pub remainder: u64,
}

/// The elevation of most cells, of equal counts the lower, and its share; without cells there is none.
#[derive(Clone, Copy, Debug, PartialEq, Eq)]
pub struct Dominance {
    /// From 0 to 3.
    pub elevation: u64,
    /// The share of that elevation's count.
    pub share: Option<Share>,
}

/// The dominance of so many cells, of which so many have elevation 0, 1, 2 and 3.
///
/// ```
/// use jenwyllt::{Dominance, Share, dominance};
///
/// let share = Some(Share { percent: 98, remainder: 98 });
/// assert_eq!(dominance(99, [1, 98, 0, 0]), Dominance { elevation: 1, share });
/// assert_eq!(dominance(0, [0; 4]), Dominance { elevation: 0, share: None });
/// ```
pub fn dominance(cells: u32, [count_0, count_1, count_2, count_3]: [u32; 4]) -> Dominance {
    let found = jenwyllt_dominance(cells, count_0, count_1, count_2, count_3);
    let share = Share { percent: found.percent, remainder: found.remainder };
    Dominance { elevation: found.elevation, share: found.has_share.then_some(share) }
}

impl Region {
    /// The dominance of the region's own counts; `None` where one of them is over 32 bits, which no call gives.
    pub fn dominance(&self) -> Option<Dominance> {
        let mut counts = [0; 4];
        for (count, &of) in counts.iter_mut().zip(&self.elevation_counts) {
            *count = u32::try_from(of).ok()?;
        }
        Some(dominance(u32::try_from(self.cells).ok()?, counts))
    }
}
