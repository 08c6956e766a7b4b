//! The entries of lists by name, laid out as the library reads and fills them.

use std::slice;

/// A point in pixels, or of an anchor in cells.
#[repr(C)]
#[derive(Debug, Clone, Copy, PartialEq, Eq, PartialOrd, Ord, Hash, Default)]
pub struct Point {
    /// From the left.
    pub x: u64,
    /// From above.
    pub y: u64,
}

/// A line that cuts the map.
#[repr(C)]
#[derive(Debug, Clone, Copy, PartialEq, Eq, PartialOrd, Ord, Hash, Default)]
pub struct Span {
    /// One endpoint.
    pub start: Point,
    /// The other.
    pub end: Point,
}

/// A choke boundary. A sheet can hold any numbers here; [`kept_boundaries`](crate::kept_boundaries) says which are allowed.
///
/// ```
/// use jenwyllt::Boundary;
///
/// let choke = Boundary::new([8, 0, 8, 8], 8.0);
/// let foot = Boundary { kind: Boundary::LOWER, ramp: 7, upper: 1, ..choke };
/// assert_eq!((foot.start.x, foot.width, foot.lower), (8, 8.0, 0));
/// assert_eq!(<[u64; 9]>::from(foot), [8, 0, 8, 8, 8f64.to_bits(), 1, 7, 0, 1]);
/// ```
#[repr(C)]
#[derive(Debug, Clone, Copy, PartialEq, Default)]
pub struct Boundary {
    /// One endpoint.
    pub start: Point,
    /// The other.
    pub end: Point,
    /// In pixels.
    pub width: f64,
    /// Which end of a ramp it is: [`NO_RAMP`](Self::NO_RAMP), [`LOWER`](Self::LOWER) or [`UPPER`](Self::UPPER).
    pub kind: u64,
    /// The id of the ramp, 0 without one.
    pub ramp: u64,
    /// The lower elevation of the ramp, 0 without one.
    pub lower: u64,
    /// Its upper elevation, 0 without one.
    pub upper: u64,
}

impl Boundary {
    /// The kind of a boundary that is no end of a ramp.
    pub const NO_RAMP: u64 = 0;
    /// The kind of a ramp's lower end.
    pub const LOWER: u64 = 1;
    /// The kind of a ramp's upper end.
    pub const UPPER: u64 = 2;

    /// A boundary without a ramp.
    pub fn new(ends: impl Into<Span>, width: f64) -> Self {
        let Span { start, end } = ends.into();
        Self { start, end, width, ..Self::default() }
    }

    /// The line between its endpoints.
    pub fn span(&self) -> Span {
        Span { start: self.start, end: self.end }
    }
}

/// Of the steps that a span removes.
#[repr(C)]
#[derive(Debug, Clone, Copy, PartialEq, Eq, Hash, Default)]
pub struct Tally {
    /// How many there are.
    pub removed: u32,
    /// How many of them join two regions.
    pub separated: u32,
}

/// Two regions that a span parts.
#[repr(C)]
#[derive(Debug, Clone, Copy, PartialEq, Eq, PartialOrd, Ord, Hash, Default)]
pub struct Pair {
    /// The number of the span.
    pub span: u32,
    /// The smaller label.
    pub smaller: u32,
    /// The larger label.
    pub larger: u32,
}

/// A boundary that is kept.
#[repr(C)]
#[derive(Debug, Clone, Copy, PartialEq, Eq, Hash, Default)]
pub struct Row {
    /// Its number from 0.
    pub number: u64,
    /// Its smaller endpoint.
    pub start: Point,
    /// Its larger endpoint.
    pub end: Point,
}

/// An accession record of the catalogue.
#[repr(C)]
#[derive(Debug, Clone, Copy, PartialEq, Eq, Hash, Default)]
pub struct Accession {
    /// Its own number.
    pub own: u64,
    /// The number of its map.
    pub map: u64,
    /// The day.
    pub day: u64,
    /// The own number of the record that it supersedes, or 0.
    pub superseded: u64,
}

/// A Gregorian date. Any numbers are allowed here; [`maps_of_day`](crate::maps_of_day) refuses what is no day of 2000 to 2099.
#[repr(C)]
#[derive(Debug, Clone, Copy, PartialEq, Eq, PartialOrd, Ord, Hash, Default)]
pub struct Date {
    /// The year.
    pub year: u64,
    /// From 1, January.
    pub month: u64,
    /// From 1.
    pub day: u64,
}

/// A map in the tournament pool, from a first day to an end that no longer belongs to the term.
#[repr(C)]
#[derive(Debug, Clone, Copy, PartialEq, Eq, PartialOrd, Ord, Hash, Default)]
pub struct Term {
    /// The number of the map.
    pub map: u64,
    /// Its first day.
    pub first: Date,
    /// Its end.
    pub end: Date,
}

/// An entry that lies in memory as so many numbers, one after another.
///
/// # Safety
///
/// The type is `#[repr(C)]`, has `NUMBERS` fields of the size of `Number` and nothing else, and any bits are a value of it.
pub(crate) unsafe trait Entry: Copy {
    type Number: Copy;
    const NUMBERS: usize;
}

/// The numbers of a list of entries.
pub(crate) fn flat<E: Entry>(list: &[E]) -> &[E::Number] {
    const { assert!(size_of::<E>() == E::NUMBERS * size_of::<E::Number>() && align_of::<E>() >= align_of::<E::Number>()) };
    // SAFETY: an entry is `NUMBERS` numbers, so that the same memory holds so many numbers for each.
    unsafe { slice::from_raw_parts(list.as_ptr().cast(), E::NUMBERS * list.len()) }
}

/// The same to be filled.
pub(crate) fn flat_mut<E: Entry>(list: &mut [E]) -> &mut [E::Number] {
    const { assert!(size_of::<E>() == E::NUMBERS * size_of::<E::Number>() && align_of::<E>() >= align_of::<E::Number>()) };
    // SAFETY: as above, and any numbers make an entry.
    unsafe { slice::from_raw_parts_mut(list.as_mut_ptr().cast(), E::NUMBERS * list.len()) }
}

macro_rules! entries {
    ($($entry:ty: $count:literal of $number:ty;)*) => {
        // SAFETY: each is `#[repr(C)]` and has so many fields of that size; `f64` is as wide as `u64`, and takes any bits.
        $(unsafe impl Entry for $entry {
            type Number = $number;
            const NUMBERS: usize = $count;
        }

        impl From<[$number; $count]> for $entry {
            /// From its numbers, as they stand in a list.
            fn from(numbers: [$number; $count]) -> Self {
                let mut entry = Self::default();
                flat_mut(slice::from_mut(&mut entry)).copy_from_slice(&numbers);
                entry
            }
        }

        impl From<$entry> for [$number; $count] {
            /// Its numbers, as they stand in a list; a width as its bits.
            fn from(entry: $entry) -> Self {
                flat(slice::from_ref(&entry)).try_into().expect("as many numbers")
            }
        })*
    };
}

entries! {
    Point: 2 of u64;
    Span: 4 of u64;
    Boundary: 9 of u64;
    Row: 5 of u64;
    Tally: 2 of u32;
    Pair: 3 of u32;
    Accession: 4 of u64;
    Date: 3 of u64;
    Term: 7 of u64;
}
