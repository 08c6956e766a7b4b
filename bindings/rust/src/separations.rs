//! How far the boundaries of a map are apart.

use crate::entries::flat;
use crate::exported::jenwyllt_separations;
use crate::{Boundary, Refusal};

/// The separation of two boundaries.
#[derive(Debug, Clone, Copy, PartialEq)]
pub struct Separation {
    /// The smaller number of the two, from 0.
    pub smaller: u64,
    /// The larger number.
    pub larger: u64,
    /// In pixels, as pass 1 works it out: within 2^-32 of the root of the exact square, and 0.0 exactly when the two share a point.
    pub value: f64,
    /// Of the exact square of the distance; at most 2^54.
    pub numerator: u64,
    /// Of the exact square, not in lowest terms; at most 2^27, and not 0.
    pub denominator: u64,
}

/// The separation of each two boundaries on a map of these sides, by the larger number, then the smaller.
///
/// Refuses 1, 3 and 7.
///
/// ```
/// use jenwyllt::{Boundary, Cause, separations};
///
/// let boundaries = [[0, 0, 4, 4], [3, 2, 5, 1], [2, 2, 2, 2]].map(|ends| Boundary::new(ends, 8.0));
/// let found = separations(4, 4, &boundaries).unwrap();
/// assert_eq!((found[0].value, found[0].numerator, found[0].denominator), (0.5f64.sqrt(), 16, 32));
/// assert_eq!((found[1].smaller, found[1].larger, found[1].value), (0, 2, 0.0));
///
/// let refusal = separations(4, 4, &[Boundary::new([33, 0, 0, 0], 8.0)]).unwrap_err();
/// assert_eq!((refusal.cause(), refusal.place), (Some(Cause::Boundary), 0));
/// ```
pub fn separations(width: u64, height: u64, boundaries: &[Boundary]) -> Result<Vec<Separation>, Refusal> {
    let pairs = boundaries.len() * boundaries.len().saturating_sub(1) / 2;
    let mut rows = vec![[0; 5]; pairs];
    separations_into(width, height, flat(boundaries), rows.as_flattened_mut())?;
    Ok(rows.into_iter().map(separation).collect())
}

fn separation([smaller, larger, bits, numerator, denominator]: [u64; 5]) -> Separation {
    Separation { smaller, larger, value: f64::from_bits(bits), numerator, denominator }
}

/// The same with an output that the caller lends; answers how many rows of five numbers were written: both numbers, the bits of the
/// separation, numerator and denominator.
///
/// Refuses 10 too, where the output is shorter than five numbers a pair. It stays as it was with every refusal.
///
/// ```
/// let width = 8f64.to_bits();
/// let boundaries = [0, 0, 8, 0, width, 0, 0, 0, 0, 0, 3, 8, 3, width, 0, 0, 0, 0];
/// let mut output = [9; 6];
/// assert_eq!(jenwyllt::separations_into(1, 1, &boundaries, &mut output), Ok(1));
/// assert_eq!(output, [0, 1, 3f64.to_bits(), 9, 1, 9]);
/// ```
pub fn separations_into(width: u64, height: u64, boundaries: &[u64], output: &mut [u64]) -> Result<u64, Refusal> {
    // SAFETY: each pointer and length is a slice's own, so it is aligned, not null, and valid for that length, for writes where the
    // function fills; the slice lent as `&mut` overlaps no other, and nothing else uses it before the call returns. The function is
    // proved for lists of any content and length, keeps no pointer and does not unwind.
    let answer =
        unsafe { jenwyllt_separations(width, height, boundaries.as_ptr(), boundaries.len(), output.as_mut_ptr(), output.len()) };
    answer.result()
}
