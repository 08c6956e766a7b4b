//! The line of an accession record.

use crate::entries::{flat, flat_mut};
use crate::exported::jenwyllt_report_line;
use crate::{Accession, Refusal};

/// Every record of the map of an own number, newest first; none for an unknown number.
///
/// Own numbers start above 0 and strictly ascend; the days of one map never fall along the list; a record supersedes only an earlier
/// one of its map that no other has superseded; only a map's first record has 0. Refuses 17 at the first record that breaks a rule.
///
/// ```
/// use jenwyllt::{Accession, Cause, report_line};
///
/// let first = Accession { own: 1, map: 7, day: 10, superseded: 0 };
/// let other = Accession { own: 2, map: 9, day: 3, superseded: 0 };
/// let second = Accession { own: 4, map: 7, day: 10, superseded: 1 };
/// assert_eq!(report_line(&[first, other, second], 1), Ok(vec![second, first]));
/// assert_eq!(report_line(&[first, other, second], 3), Ok(vec![]));
///
/// let refusal = report_line(&[first, other, second, Accession { own: 5, ..second }], 1).unwrap_err();
/// assert_eq!((refusal.cause(), refusal.place), (Some(Cause::Accession), 3));
/// ```
pub fn report_line(records: &[Accession], own: u64) -> Result<Vec<Accession>, Refusal> {
    let mut line = vec![Accession::default(); records.len()];
    let count = report_line_into(flat(records), own, flat_mut(&mut line))?;
    line.truncate(count as usize);
    Ok(line)
}

/// The same over lists of numbers, four a record, that the caller lends; gives the count of records in the line. What stands behind
/// them in the output stays.
///
/// Also refuses 3 where the last record is unfinished, and 10 where the output is too short for the line; then the output is as it was.
pub fn report_line_into(records: &[u64], own: u64, output: &mut [u64]) -> Result<u64, Refusal> {
    // SAFETY: each pointer comes with the length of its slice, and a slice that is filled is borrowed alone.
    let answer = unsafe { jenwyllt_report_line(records.as_ptr(), records.len(), own, output.as_mut_ptr(), output.len()) };
    answer.result()
}
