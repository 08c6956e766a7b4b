//! Safe calls of the library `jenwyllt`, which is proved to meet its definitions for every input: the regions of a map cut by
//! spans, the boundaries that a pass keeps, two desks over one partition, the passes run to rest, the ranked junction list, runner and
//! guard, how far boundaries are apart, the reader, the writer and the converter of sheets, the line of an accession record, the maps in the pool on a day,
//! the year's figures, the share behind dominance, and the correctly rounded hypotenuse.
//!
//! [`partition`], [`kept_boundaries`], [`ranked_junctions`], [`separations`], [`read_sheet`], [`report_line`] and [`maps_of_day`] make the lists that the
//! library fills. [`partition_into`], [`kept_boundaries_into`], [`ranked_junctions_into`], [`separations_into`], [`read_sheet_into`], [`report_line_into`],
//! [`maps_of_day_into`] and [`two_desks_into`] take lists of numbers that the caller lends and allocate nothing. A list of any content and length is a
//! valid argument: what does not fit is answered by a [`Refusal`].
//!
//! The library is for x86-64 Linux; build.rs says where it is looked for. Floating-point operations must round to nearest and keep
//! subnormal numbers, as Rust has it: code in other languages that changes this for its thread must restore it before a call.

#![deny(unsafe_op_in_unsafe_fn, missing_docs)]

mod accession;
mod desks;
mod dominance;
mod entries;
mod exported;
mod game;
mod hypotenuse;
mod kept;
mod partition;
mod pool;
mod ranked;
mod refusal;
mod report;
mod rest;
mod results;
mod separations;
mod sheet;

pub use accession::{report_line, report_line_into};
pub use desks::{DeskLists, DesksAnswer, Order, Terrain, two_desks_into};
pub use dominance::{Dominance, Share, dominance};
pub use entries::{Accession, Boundary, Date, Pair, Point, Row, Span, Tally, Term};
pub use game::{Game, KeptGame, Played, VERDICTS_LENGTH, Verdict, Winner, runner_and_guard, runner_and_guard_into, solve_game, solve_game_into};
pub use hypotenuse::{hypot, hypotenuse};
pub use kept::{KeptBoundaries, KeptLists, Map, Region, kept_boundaries, kept_boundaries_into};
pub use partition::{Partition, PartitionLists, partition, partition_into};
pub use pool::{Entry, maps_of_day, maps_of_day_into};
pub use ranked::{RankedJunctions, RankedProposal, ranked_junctions, ranked_junctions_into};
pub use refusal::{Cause, Refusal};
pub use report::{Figures, Mean, Report, read_for_report, report_run, report_sheet};
pub use rest::{RestCounts, Rested, run_to_rest, run_to_rest_into};
pub use results::{ResultHeader, ResultLists, RunResult, read_result, read_result_into, write_result, write_result_into};
pub use separations::{Separation, separations, separations_into};
pub use sheet::{
    Header, Sheet, SheetLists, convert_sheet, convert_sheet_into, read_sheet, read_sheet_into, write_sheet, write_sheet_into,
};
