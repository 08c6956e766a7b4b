//! The maps in the tournament pool on a day.

use crate::entries::flat;
use crate::exported::jenwyllt_maps_of_day;
use crate::{Accession, Date, Refusal, Term};

const ENTRY_NUMBERS: usize = 4;

/// A map of the day, and its newest accession record of that day or earlier.
#[derive(Debug, Clone, Copy, PartialEq, Eq, Hash)]
pub struct Entry {
    /// The number of the map.
    pub map: u64,
    /// Its record, or that there is none.
    pub record: Option<Accession>,
}

/// The maps of a day, by number, each once.
///
/// Days are Gregorian dates from 1 January 2000, day 0 of the records, to 31 December 2099, an end also 1 January 2100. The terms of
/// one map may touch but not overlap. Refuses 17 at the first record that breaks a rule ([`report_line`](crate::report_line) has the
/// rules), then term by term 18 for a bad date and 19 for a term that is empty or overlaps an earlier one of its map, and 18 at the
/// number of terms where the day asked for is no day.
///
/// ```
/// use jenwyllt::{Accession, Cause, Date, Entry, Term, maps_of_day};
///
/// let date = |year, month, day| Date { year, month, day };
/// let term = Term { map: 7, first: date(2000, 2, 1), end: date(2000, 3, 1) };
/// let first = Accession { own: 1, map: 7, day: 31, superseded: 0 };
/// let second = Accession { own: 2, map: 7, day: 59, superseded: 1 };
/// let listed = |asked| maps_of_day(&[term], &[first, second], asked);
/// assert_eq!(listed(date(2000, 2, 28)), Ok(vec![Entry { map: 7, record: Some(first) }]));
/// assert_eq!(listed(date(2000, 2, 29)), Ok(vec![Entry { map: 7, record: Some(second) }]));
/// assert_eq!(listed(date(2000, 3, 1)), Ok(vec![]));
///
/// let refusal = listed(date(2001, 2, 29)).unwrap_err();
/// assert_eq!((refusal.cause(), refusal.place), (Some(Cause::Date), 1));
/// ```
pub fn maps_of_day(terms: &[Term], records: &[Accession], asked: Date) -> Result<Vec<Entry>, Refusal> {
    let mut output = vec![0; ENTRY_NUMBERS * terms.len()];
    let count = maps_of_day_into(flat(terms), flat(records), asked, &mut output)?;
    let entries = output.chunks(ENTRY_NUMBERS).take(count as usize);
    Ok(entries
        .map(|entry| Entry {
            map: entry[0],
            record: (entry[1] != 0).then(|| Accession { own: entry[1], map: entry[0], day: entry[2], superseded: entry[3] }),
        })
        .collect())
}

/// The same over lists of numbers that the caller lends, seven a term, four a record, and four an entry: map, and the record's own
/// number, day and number superseded, all three 0 where there is none. Gives the count of maps. What stands behind them stays.
///
/// Also refuses 3 where the last term or record is unfinished, and 10 where the output is too short; then the output is as it was.
pub fn maps_of_day_into(terms: &[u64], records: &[u64], asked: Date, output: &mut [u64]) -> Result<u64, Refusal> {
    let Date { year, month, day } = asked;
    // SAFETY: each pointer comes with the length of its slice, and a slice that is filled is borrowed alone.
    let answer = unsafe {
        jenwyllt_maps_of_day(
            terms.as_ptr(),
            terms.len(),
            records.as_ptr(),
            records.len(),
            year,
            month,
            day,
            output.as_mut_ptr(),
            output.len(),
        )
    };
    answer.result()
}
