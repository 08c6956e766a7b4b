//! The year's figures: a report that runs are added to one by one, 10,000 at most.

use crate::exported::{
    Reported, jenwyllt_empty_report, jenwyllt_mean_kept, jenwyllt_read_for_report, jenwyllt_report_run, jenwyllt_report_sheet,
};
use crate::{Header, KeptLists, Map, PartitionLists, Refusal, SheetLists};

/// Of accepted runs of a pass: how many they are, and of these the boundaries in, kept and removed. In is kept and removed together.
#[repr(C)]
#[derive(Clone, Copy, Debug, PartialEq, Eq)]
pub struct Figures {
    /// How many runs of the pass were accepted.
    pub accepted: u64,
    /// The boundaries of their maps.
    pub boundaries: u64,
    /// Those that were kept.
    pub kept: u64,
    /// Those that were removed.
    pub removed: u64,
}

/// What runs add up to. A report that the functions of this crate made from [`Report::empty`] holds exact figures; sums over other
/// numbers are modulo 2^64.
#[repr(C)]
#[derive(Clone, Copy, Debug, PartialEq, Eq)]
pub struct Report {
    /// All runs, accepted and refused, at most 10,000.
    pub runs: u64,
    /// Refused runs by the refusal's number; the first is 0.
    pub refused: [u64; 25],
    /// Of pass 1.
    pub pass_1: Figures,
    /// Of pass 2.
    pub pass_2: Figures,
    /// Of pass 3.
    pub pass_3: Figures,
    /// The total of squared lengths of kept rows in square pixels.
    pub squared: u64,
}

/// `kept == quotient * accepted + remainder`, and `remainder < accepted`.
#[derive(Clone, Copy, Debug, PartialEq, Eq)]
pub struct Mean {
    /// Rounded down.
    pub quotient: u64,
    /// What is left.
    pub remainder: u64,
}

impl Report {
    /// A report starts empty.
    ///
    /// ```
    /// let report = jenwyllt::Report::empty();
    /// assert_eq!((report.runs, report.squared), (0, 0));
    /// assert_eq!(report.mean_kept(1), None);
    /// ```
    pub fn empty() -> Self {
        jenwyllt_empty_report()
    }

    /// The mean kept for an accepted run of a pass; `None` where no run of it was accepted, and for a pass that is not 1, 2 or 3.
    pub fn mean_kept(&self, pass: u64) -> Option<Mean> {
        let mean = jenwyllt_mean_kept(*self, pass);
        mean.has_mean.then_some(Mean { quotient: mean.quotient, remainder: mean.remainder })
    }
}

/// Reads a sheet of any size into lists that the caller lends, as [`crate::read_sheet_into`]. A sheet that is refused is a run that
/// was refused, and is added to the report; one that is read is no run yet. With 10,000 runs in the report nothing is read: refused
/// 3, and report and lists stay as they were.
pub fn read_for_report(report: &mut Report, bytes: &[u8], lists: SheetLists<'_>) -> Result<Header, Refusal> {
    let SheetLists { cells, spans, boundaries, anchors } = lists;
    // SAFETY: each pointer and length is a slice's own, so it is aligned, not null, and valid for that length, for writes where the
    // function fills; slices lent as `&mut` overlap no other, and nothing else uses them before the call returns. `Report` has the
    // layout of the header. The function is proved for lists and reports of any content, keeps no pointer and does not unwind.
    let opened = unsafe {
        jenwyllt_read_for_report(
            *report,
            bytes.as_ptr(),
            bytes.len(),
            cells.as_mut_ptr(),
            cells.len(),
            spans.as_mut_ptr(),
            spans.len(),
            boundaries.as_mut_ptr(),
            boundaries.len(),
            anchors.as_mut_ptr(),
            anchors.len(),
        )
    };
    *report = opened.report;
    match opened.number {
        0 => Ok(Header {
            pass: opened.pass,
            width: opened.width,
            height: opened.height,
            spans: opened.spans,
            boundaries: opened.boundaries,
            anchors: opened.anchors,
        }),
        number => Err(Refusal { number, place: opened.place }),
    }
}

/// Takes the report over, and gives what was answered.
fn taken(report: &mut Report, reported: Reported) -> Result<u64, Refusal> {
    *report = reported.report;
    match reported.number {
        0 => Ok(reported.value),
        number => Err(Refusal { number, place: reported.value }),
    }
}

/// Reads a sheet, runs its pass and adds the run, with the limits of the program `keptlist`: 65,536 bytes, 4,096 cells, 512 regions
/// and 2,048 pairs. Gives the count of rows kept. With 10,000 runs in the report nothing is read: refused 3, and the report stays as
/// it was.
///
/// ```
/// use jenwyllt::{Refusal, Report, report_sheet};
///
/// let mut report = Report::empty();
/// assert_eq!(report_sheet(&mut report, &[]), Err(Refusal { number: 14, place: 0 }));
/// assert_eq!((report.runs, report.refused[14]), (1, 1));
/// ```
pub fn report_sheet(report: &mut Report, bytes: &[u8]) -> Result<u64, Refusal> {
    // SAFETY: as in `read_for_report`.
    let reported = unsafe { jenwyllt_report_sheet(*report, bytes.as_ptr(), bytes.len()) };
    taken(report, reported)
}

/// Makes the call [`crate::kept_boundaries_into`] and adds what it answered to the report, a refusal too. With 10,000 runs in the
/// report no call is made: refused 3, and report and lists stay as they were.
///
/// ```
/// use jenwyllt::{KeptLists, Map, PartitionLists, Region, Report, report_run};
///
/// let width = 8f64.to_bits();
/// let boundaries = [8, 0, 8, 8, width, 0, 0, 0, 0, 16, 0, 16, 8, width, 1, 7, 0, 1];
/// let (cells, spans) = ([1; 3], [8, 0, 8, 8, 16, 0, 16, 8]);
/// let map = Map { pass: 1, width: 3, height: 1, cells: &cells, spans: &spans, boundaries: &boundaries, anchors: &[] };
/// let lists = KeptLists {
///     partition: PartitionLists {
///         labels: &mut [0; 3],
///         masks: &mut [0; 3],
///         queue: &mut [0; 3],
///         tallies: &mut [0; 4],
///         pairs: &mut [0; 6],
///     },
///     records: &mut [Region::default(); 3],
///     output: &mut [0; 10],
/// };
/// let mut report = Report::empty();
/// assert_eq!(report_run(&mut report, map, lists), Ok(1));
/// assert_eq!((report.runs, report.pass_1.boundaries, report.pass_1.kept, report.pass_1.removed), (1, 2, 1, 1));
/// assert_eq!(report.squared, 64);
/// ```
pub fn report_run(report: &mut Report, map: Map<'_>, lists: KeptLists<'_>) -> Result<u64, Refusal> {
    let Map { pass, width, height, cells, spans, boundaries, anchors } = map;
    let KeptLists { partition: PartitionLists { labels, masks, queue, tallies, pairs }, records, output } = lists;
    // SAFETY: as in `read_for_report`; `Region` has the layout of the header too.
    let reported = unsafe {
        jenwyllt_report_run(
            *report,
            pass,
            width,
            height,
            cells.as_ptr(),
            cells.len(),
            spans.as_ptr(),
            spans.len(),
            boundaries.as_ptr(),
            boundaries.len(),
            anchors.as_ptr(),
            anchors.len(),
            labels.as_mut_ptr(),
            labels.len(),
            masks.as_mut_ptr(),
            masks.len(),
            queue.as_mut_ptr(),
            queue.len(),
            tallies.as_mut_ptr(),
            tallies.len(),
            pairs.as_mut_ptr(),
            pairs.len(),
            records.as_mut_ptr(),
            records.len(),
            output.as_mut_ptr(),
            output.len(),
        )
    };
    taken(report, reported)
}
