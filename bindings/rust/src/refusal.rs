//! Why a call was not answered.

use std::error::Error;
use std::fmt;

macro_rules! causes {
    ($($name:ident = $number:literal, $words:literal;)*) => {
        /// The cause of a refusal, by the numbers of `enum jenwyllt_refusal` in include/jenwyllt.h.
        #[derive(Debug, Clone, Copy, PartialEq, Eq, Hash)]
        #[non_exhaustive]
        #[repr(u64)]
        pub enum Cause {
            $(#[doc = $words] $name = $number,)*
        }

        impl Cause {
            /// The cause with this number.
            pub fn of(number: u64) -> Option<Self> {
                match number {
                    $($number => Some(Self::$name),)*
                    _ => None,
                }
            }

            /// The cause in words.
            pub fn words(self) -> &'static str {
                match self {
                    $(Self::$name => $words,)*
                }
            }
        }
    };
}

causes! {
    Sides = 1, "a side is 0 or over 1,024 cells";
    Cells = 2, "the cells are not width times height";
    Entries = 3, "over 256 spans, boundaries or anchors, or the last one is unfinished";
    Pass = 4, "the pass is not 1, 2 or 3";
    SpanOutside = 5, "an endpoint of the span lies off the map";
    SpanOfNoLength = 6, "the endpoints of the span are equal";
    Boundary = 7, "the boundary has an endpoint off the map, or a width, kind, ramp id or elevation that is not allowed";
    AnchorOutside = 8, "the anchor lies off the map";
    Elevation = 9, "the cell is walkable and of an elevation over 3";
    Room = 10, "a lent list is too short";
    Regions = 11, "there are more regions than records";
    Pairs = 12, "there are more pairs of regions than rows";
    Range = 13, "an argument is neither zero nor of a magnitude from 2^-64 to 2^15";
    Sheet = 14, "the sheet is ill formed";
    Result = 15, "the result breaks a rule: pairs or rows do not ascend, or labels do not start each new number in turn up to the region count";
    Lists = 16, "the span and the boundary of this number are not there both, or differ in an endpoint as written";
    Accession = 17, "the accession record breaks a rule";
    Date = 18, "a date of the term, or at the number of terms the day asked for, is not a day from 2000 to 2099";
    Term = 19, "the term is empty or overlaps an earlier term of its map";
    Desk = 20, "the desk's boundary and the shared span of this number are not one segment, or one of them is missing";
    Ranked = 21, "there are more proposals than rows of the ranked list";
    TwoLists = 22, "the spans are not the endpoints of the boundaries as written, so that the sheet cannot be converted";
    Graph = 23, "there are more than 32 regions";
    Goal = 24, "the goal is no region of the graph";
}

/// A refusal: the number of its cause, and the place of the first fault (the span, boundary, anchor, cell or byte), 0 where the
/// cause has no place.
///
/// ```
/// use jenwyllt::Cause;
///
/// let refusal = jenwyllt::hypotenuse(1e300, 0.0).unwrap_err();
/// assert_eq!(refusal.cause(), Some(Cause::Range));
/// assert_eq!(refusal.to_string(), "refused 13 at 0: an argument is neither zero nor of a magnitude from 2^-64 to 2^15");
/// ```
#[derive(Debug, Clone, Copy, PartialEq, Eq, Hash)]
pub struct Refusal {
    /// The number of the cause.
    pub number: u64,
    /// Where the first fault is.
    pub place: u64,
}

impl Refusal {
    /// The cause by its name.
    pub fn cause(&self) -> Option<Cause> {
        Cause::of(self.number)
    }
}

impl fmt::Display for Refusal {
    fn fmt(&self, f: &mut fmt::Formatter<'_>) -> fmt::Result {
        let words = self.cause().map_or("for a cause that this crate does not know", Cause::words);
        write!(f, "refused {} at {}: {words}", self.number, self.place)
    }
}

impl Error for Refusal {}
