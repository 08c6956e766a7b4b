//! The reader of sheets of kinds 1 and 3, a map as bytes; the writer of kind 3, and the converter of kind 1 to kind 3.

use crate::entries::{flat, flat_mut};
use crate::exported::{jenwyllt_convert_sheet, jenwyllt_read_sheet, jenwyllt_write_sheet};
use crate::{Boundary, Point, Refusal, Span};

const MOST_CELLS: usize = 1024 * 1024;
const MOST_ENTRIES: usize = 256;

/// What a sheet holds. Beyond its form nothing is tested: endpoints may lie outside the map.
#[derive(Debug, Clone, PartialEq)]
pub struct Sheet {
    /// The pass to run.
    pub pass: u64,
    /// In cells.
    pub width: u64,
    /// In cells.
    pub height: u64,
    /// Row by row: 1 for walkable, plus 2 for ramp, plus 4 times the elevation.
    pub cells: Vec<u8>,
    /// The lines that cut the map.
    pub spans: Vec<Span>,
    /// The choke boundaries among which a pass chooses.
    pub boundaries: Vec<Boundary>,
    /// In cells.
    pub anchors: Vec<Point>,
}

/// What a sheet opens with, and how many entries its lists have.
#[derive(Debug, Clone, Copy, PartialEq, Eq)]
pub struct Header {
    /// The pass to run.
    pub pass: u64,
    /// In cells.
    pub width: u64,
    /// In cells.
    pub height: u64,
    /// Entries of four numbers.
    pub spans: u64,
    /// Entries of nine numbers.
    pub boundaries: u64,
    /// Entries of two numbers.
    pub anchors: u64,
}

/// The lists that [`read_sheet_into`] fills. Each may be longer than needed; what it holds behind the last entry stays.
#[derive(Debug)]
pub struct SheetLists<'a> {
    /// One a cell.
    pub cells: &'a mut [u8],
    /// Four a span.
    pub spans: &'a mut [u64],
    /// Nine a boundary.
    pub boundaries: &'a mut [u64],
    /// Two an anchor.
    pub anchors: &'a mut [u64],
}

/// Reads a sheet. Of kind 3 the boundaries serve as spans.
///
/// Refuses 14, 1 and 3; reading stops at the first fault.
///
/// ```
/// // Kind 1, pass 3, 2 by 1 cells, one span, no boundaries, no anchors.
/// let sheet = jenwyllt::read_sheet(&[1, 3, 2, 1, 1, 1, 1, 8, 0, 8, 8, 0, 0]).unwrap();
/// assert_eq!((sheet.pass, sheet.width, sheet.height), (3, 2, 1));
/// assert_eq!(sheet.cells, [1, 1]);
/// assert_eq!(sheet.spans, [[8, 0, 8, 8].into()]);
///
/// let refusal = jenwyllt::read_sheet(&[1, 3, 2]).unwrap_err();
/// assert_eq!((refusal.number, refusal.place), (14, 3));
/// ```
pub fn read_sheet(bytes: &[u8]) -> Result<Sheet, Refusal> {
    // Each number takes a byte or more, so no list is too short.
    let entries = |numbers: usize| MOST_ENTRIES.min(bytes.len() / numbers);
    let mut cells = vec![0; MOST_CELLS.min(bytes.len())];
    let mut spans = vec![Span::default(); entries(4)];
    let mut boundaries = vec![Boundary::default(); entries(9)];
    let mut anchors = vec![Point::default(); entries(2)];
    let lists = SheetLists {
        cells: &mut cells,
        spans: flat_mut(&mut spans),
        boundaries: flat_mut(&mut boundaries),
        anchors: flat_mut(&mut anchors),
    };
    let header = read_sheet_into(bytes, lists)?;
    cells.truncate((header.width * header.height) as usize);
    spans.truncate(header.spans as usize);
    boundaries.truncate(header.boundaries as usize);
    anchors.truncate(header.anchors as usize);
    Ok(Sheet { pass: header.pass, width: header.width, height: header.height, cells, spans, boundaries, anchors })
}

/// The same with lists that the caller lends.
///
/// Refuses 10 too, where one of them is too short. With any refusal every list stays as it was.
///
/// ```
/// use jenwyllt::{SheetLists, read_sheet_into};
///
/// let (mut cells, mut spans) = ([7; 3], [0; 4]);
/// let lists = SheetLists { cells: &mut cells, spans: &mut spans, boundaries: &mut [], anchors: &mut [] };
/// let header = read_sheet_into(&[1, 3, 2, 1, 1, 1, 1, 8, 0, 8, 8, 0, 0], lists).unwrap();
/// assert_eq!((header.spans, header.boundaries), (1, 0));
/// assert_eq!(cells, [1, 1, 7]);
/// assert_eq!(spans, [8, 0, 8, 8]);
/// ```
pub fn read_sheet_into(bytes: &[u8], lists: SheetLists<'_>) -> Result<Header, Refusal> {
    let SheetLists { cells, spans, boundaries, anchors } = lists;
    // SAFETY: each pointer and length is a slice's own, so it is aligned, not null, and valid for that length, for writes where the
    // function fills; slices lent as `&mut` overlap no other, and nothing else uses them before the call returns. The function is
    // proved for lists of any content and length, keeps no pointer and does not unwind.
    let answer = unsafe {
        jenwyllt_read_sheet(
            bytes.as_ptr(),
            bytes.len(),
            cells.as_mut_ptr(),
            cells.len(),
            spans.as_mut_ptr(),
            spans.len(),
            boundaries.as_mut_ptr(),
            boundaries.len(),
            anchors.as_mut_ptr(),
            anchors.len(),
        )
    };
    match answer.number {
        0 => Ok(Header {
            pass: answer.pass,
            width: answer.width,
            height: answer.height,
            spans: answer.spans,
            boundaries: answer.boundaries,
            anchors: answer.anchors,
        }),
        number => Err(Refusal { number, place: answer.place }),
    }
}

/// Writes a map as a sheet of kind 3, which states the endpoints of its boundaries as spans: those of `sheet` are not looked at.
///
/// Refuses 1, 2 and 3.
///
/// ```
/// use jenwyllt::{Boundary, Sheet, read_sheet, write_sheet};
///
/// let boundary = Boundary::from([8, 0, 8, 8, 8.0f64.to_bits(), 0, 0, 0, 0]);
/// let map = Sheet {
///     pass: 3,
///     width: 2,
///     height: 1,
///     cells: vec![1, 1],
///     spans: vec![[8, 0, 8, 8].into()],
///     boundaries: vec![boundary],
///     anchors: vec![],
/// };
/// let bytes = write_sheet(&map).unwrap();
/// assert_eq!(bytes[0], 3);
/// assert_eq!(read_sheet(&bytes), Ok(map));
/// ```
pub fn write_sheet(sheet: &Sheet) -> Result<Vec<u8>, Refusal> {
    let Sheet { pass, width, height, cells, boundaries, anchors, .. } = sheet;
    // A cell takes two bytes at most, every other number ten.
    let mut out = vec![0; 2 * cells.len() + 10 * (6 + 9 * boundaries.len() + 2 * anchors.len())];
    let size = write_sheet_into(*pass, *width, *height, cells, flat(boundaries), flat(anchors), &mut out)?;
    out.truncate(size);
    Ok(out)
}

/// The same with lists of numbers that the caller lends; gives how many bytes were written.
///
/// Refuses 10 too, where `out` is too short. With any refusal it stays as it was.
///
/// ```
/// let mut out = [9; 8];
/// assert_eq!(jenwyllt::write_sheet_into(3, 1, 1, &[1], &[], &[], &mut out), Ok(7));
/// assert_eq!(out, [3, 3, 1, 1, 1, 0, 0, 9]);
/// ```
pub fn write_sheet_into(
    pass: u64,
    width: u64,
    height: u64,
    cells: &[u8],
    boundaries: &[u64],
    anchors: &[u64],
    out: &mut [u8],
) -> Result<usize, Refusal> {
    // SAFETY: as in `read_sheet_into`.
    let answer = unsafe {
        jenwyllt_write_sheet(
            pass,
            width,
            height,
            cells.as_ptr(),
            cells.len(),
            boundaries.as_ptr(),
            boundaries.len(),
            anchors.as_ptr(),
            anchors.len(),
            out.as_mut_ptr(),
            out.len(),
        )
    };
    answer.result().map(|size| size as usize)
}

/// Converts a sheet of kind 1, whose spans are the endpoints of its boundaries as written, to kind 3.
///
/// Refuses any other kind as 14 at 0, then 14, 1 and 3 as [`read_sheet`] and 4 to 9 as [`kept_boundaries`](crate::kept_boundaries),
/// and then 22, where the two lists differ.
///
/// ```
/// let old = [1, 3, 1, 1, 1, 0, 0, 0];
/// assert_eq!(jenwyllt::convert_sheet(&old), Ok(vec![3, 3, 1, 1, 1, 0, 0]));
///
/// let refusal = jenwyllt::convert_sheet(&[1, 3, 1, 1, 1, 1, 0, 0, 8, 8, 0, 0]).unwrap_err();
/// assert_eq!((refusal.number, refusal.place), (22, 0));
/// ```
pub fn convert_sheet(bytes: &[u8]) -> Result<Vec<u8>, Refusal> {
    // The new sheet is shorter than the old one.
    let mut out = vec![0; bytes.len()];
    let size = convert_sheet_into(bytes, &mut out)?;
    out.truncate(size);
    Ok(out)
}

/// The same with a list that the caller lends; gives how many bytes were written.
///
/// Refuses 10 too, last, where `out` is too short. With any refusal it stays as it was.
pub fn convert_sheet_into(bytes: &[u8], out: &mut [u8]) -> Result<usize, Refusal> {
    // SAFETY: as in `read_sheet_into`.
    let answer = unsafe { jenwyllt_convert_sheet(bytes.as_ptr(), bytes.len(), out.as_mut_ptr(), out.len()) };
    answer.result().map(|size| size as usize)
}
