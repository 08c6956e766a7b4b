//! The functions of the library, as include/jenwyllt.h declares them. A list goes as a pointer to its first entry and its length.

use crate::{Refusal, Region, Report};

/// Number 0 and a count, or a refusal's number and place.
#[repr(C)]
pub struct Answer {
    pub number: u64,
    pub value: u64,
}

impl Answer {
    pub fn result(self) -> Result<u64, Refusal> {
        match self.number {
            0 => Ok(self.value),
            number => Err(Refusal { number, place: self.value }),
        }
    }
}

/// Number 0 and two counts, or a refusal's number and place, and 0.
#[repr(C)]
pub struct RankedAnswer {
    pub number: u64,
    pub value: u64,
    pub proposals: u64,
}

/// Number 0, how many rows are kept and how many rounds were run, or a refusal's number and place.
#[repr(C)]
pub struct RestAnswer {
    pub number: u64,
    pub value: u64,
    pub rounds: u64,
}

/// What a sheet opens with, or a refusal's number and place.
#[repr(C)]
pub struct SheetAnswer {
    pub number: u64,
    pub place: u64,
    pub pass: u64,
    pub width: u64,
    pub height: u64,
    pub spans: u64,
    pub boundaries: u64,
    pub anchors: u64,
}

/// The region count and counts of entries, or a refusal's number and place.
#[repr(C)]
pub struct ResultAnswer {
    pub number: u64,
    pub place: u64,
    pub regions: u64,
    pub labels: u64,
    pub spans: u64,
    pub pairs: u64,
    pub rows: u64,
}

/// Number 0 and the root, or number 13 and 0.
#[repr(C)]
pub struct Outcome {
    pub number: u64,
    pub value: f64,
}

/// An elevation, and its share where there is one.
#[repr(C)]
pub struct DominanceAnswer {
    pub elevation: u64,
    pub has_share: bool,
    pub percent: u64,
    pub remainder: u64,
}

/// Number 0, the count of rows and the regions of the kept graph, or a refusal's number and place.
#[repr(C)]
pub struct GameAnswer {
    pub number: u64,
    pub value: u64,
    pub regions: u64,
}

/// What two desks were answered.
#[repr(C)]
pub struct DesksAnswer {
    pub route: Answer,
    pub coaching: Answer,
}

/// The mean of a pass, where there is one.
#[repr(C)]
pub struct MeanAnswer {
    pub has_mean: bool,
    pub quotient: u64,
    pub remainder: u64,
}

/// What a sheet opens with, or a refusal's number and place; and the report.
#[repr(C)]
pub struct Opened {
    pub number: u64,
    pub place: u64,
    pub pass: u64,
    pub width: u64,
    pub height: u64,
    pub spans: u64,
    pub boundaries: u64,
    pub anchors: u64,
    pub report: Report,
}

/// Number 0 and a count, or a refusal's number and place; and the report.
#[repr(C)]
pub struct Reported {
    pub number: u64,
    pub value: u64,
    pub report: Report,
}

// SAFETY: names, arguments and results are those of include/jenwyllt.h. The functions marked safe take numbers alone, and are
// proved for all of them.
unsafe extern "C" {
    pub fn jenwyllt_partition(
        width: u64,
        height: u64,
        cells: *const u8,
        cells_length: usize,
        spans: *const u64,
        spans_length: usize,
        labels: *mut u32,
        labels_length: usize,
        masks: *mut u16,
        masks_length: usize,
        queue: *mut u32,
        queue_length: usize,
        tallies: *mut u32,
        tallies_length: usize,
        pairs: *mut u32,
        pairs_length: usize,
    ) -> Answer;

    pub fn jenwyllt_kept_boundaries(
        pass: u64,
        width: u64,
        height: u64,
        cells: *const u8,
        cells_length: usize,
        spans: *const u64,
        spans_length: usize,
        boundaries: *const u64,
        boundaries_length: usize,
        anchors: *const u64,
        anchors_length: usize,
        labels: *mut u32,
        labels_length: usize,
        masks: *mut u16,
        masks_length: usize,
        queue: *mut u32,
        queue_length: usize,
        tallies: *mut u32,
        tallies_length: usize,
        pairs: *mut u32,
        pairs_length: usize,
        records: *mut Region,
        records_length: usize,
        output: *mut u64,
        output_length: usize,
    ) -> Answer;

    pub fn jenwyllt_ranked_junctions(
        width: u64,
        height: u64,
        cells: *const u8,
        cells_length: usize,
        spans: *const u64,
        spans_length: usize,
        boundaries: *const u64,
        boundaries_length: usize,
        anchors: *const u64,
        anchors_length: usize,
        labels: *mut u32,
        labels_length: usize,
        masks: *mut u16,
        masks_length: usize,
        queue: *mut u32,
        queue_length: usize,
        tallies: *mut u32,
        tallies_length: usize,
        pairs: *mut u32,
        pairs_length: usize,
        records: *mut Region,
        records_length: usize,
        output: *mut u64,
        output_length: usize,
        ranked: *mut u32,
        ranked_length: usize,
    ) -> RankedAnswer;

    pub fn jenwyllt_run_to_rest(
        width: u64,
        height: u64,
        cells: *const u8,
        cells_length: usize,
        spans: *const u64,
        spans_length: usize,
        boundaries: *const u64,
        boundaries_length: usize,
        anchors: *const u64,
        anchors_length: usize,
        labels: *mut u32,
        labels_length: usize,
        masks: *mut u16,
        masks_length: usize,
        queue: *mut u32,
        queue_length: usize,
        tallies: *mut u32,
        tallies_length: usize,
        pairs: *mut u32,
        pairs_length: usize,
        records: *mut Region,
        records_length: usize,
        output: *mut u64,
        output_length: usize,
    ) -> RestAnswer;

    pub fn jenwyllt_two_desks(
        order: u64,
        width: u64,
        height: u64,
        cells: *const u8,
        cells_length: usize,
        spans: *const u64,
        spans_length: usize,
        route_pass: u64,
        route_boundaries: *const u64,
        route_boundaries_length: usize,
        route_anchors: *const u64,
        route_anchors_length: usize,
        coaching_pass: u64,
        coaching_boundaries: *const u64,
        coaching_boundaries_length: usize,
        coaching_anchors: *const u64,
        coaching_anchors_length: usize,
        labels: *mut u32,
        labels_length: usize,
        masks: *mut u16,
        masks_length: usize,
        queue: *mut u32,
        queue_length: usize,
        tallies: *mut u32,
        tallies_length: usize,
        pairs: *mut u32,
        pairs_length: usize,
        records: *mut Region,
        records_length: usize,
        route_output: *mut u64,
        route_output_length: usize,
        coaching_output: *mut u64,
        coaching_output_length: usize,
    ) -> DesksAnswer;

    pub fn jenwyllt_separations(
        width: u64,
        height: u64,
        boundaries: *const u64,
        boundaries_length: usize,
        output: *mut u64,
        output_length: usize,
    ) -> Answer;

    pub fn jenwyllt_solve_game(
        regions: u64,
        pairs: *const u32,
        pairs_length: usize,
        goal: u64,
        verdicts: *mut u32,
        verdicts_length: usize,
    ) -> Answer;

    pub fn jenwyllt_runner_and_guard(
        pass: u64,
        width: u64,
        height: u64,
        cells: *const u8,
        cells_length: usize,
        spans: *const u64,
        spans_length: usize,
        boundaries: *const u64,
        boundaries_length: usize,
        anchors: *const u64,
        anchors_length: usize,
        goal: u64,
        labels: *mut u32,
        labels_length: usize,
        masks: *mut u16,
        masks_length: usize,
        queue: *mut u32,
        queue_length: usize,
        tallies: *mut u32,
        tallies_length: usize,
        pairs: *mut u32,
        pairs_length: usize,
        records: *mut Region,
        records_length: usize,
        output: *mut u64,
        output_length: usize,
        verdicts: *mut u32,
        verdicts_length: usize,
    ) -> GameAnswer;

    pub fn jenwyllt_read_result(
        bytes: *const u8,
        bytes_length: usize,
        labels: *mut u64,
        labels_length: usize,
        tallies: *mut u64,
        tallies_length: usize,
        pairs: *mut u64,
        pairs_length: usize,
        rows: *mut u64,
        rows_length: usize,
    ) -> ResultAnswer;

    pub fn jenwyllt_write_result(
        regions: u64,
        labels: *const u64,
        labels_length: usize,
        tallies: *const u64,
        tallies_length: usize,
        pairs: *const u64,
        pairs_length: usize,
        rows: *const u64,
        rows_length: usize,
        out: *mut u8,
        out_length: usize,
    ) -> Answer;

    pub fn jenwyllt_read_sheet(
        bytes: *const u8,
        bytes_length: usize,
        cells: *mut u8,
        cells_length: usize,
        spans: *mut u64,
        spans_length: usize,
        boundaries: *mut u64,
        boundaries_length: usize,
        anchors: *mut u64,
        anchors_length: usize,
    ) -> SheetAnswer;

    pub fn jenwyllt_write_sheet(
        pass: u64,
        width: u64,
        height: u64,
        cells: *const u8,
        cells_length: usize,
        boundaries: *const u64,
        boundaries_length: usize,
        anchors: *const u64,
        anchors_length: usize,
        out: *mut u8,
        out_length: usize,
    ) -> Answer;

    pub fn jenwyllt_convert_sheet(bytes: *const u8, bytes_length: usize, out: *mut u8, out_length: usize) -> Answer;

    pub fn jenwyllt_report_line(
        records: *const u64,
        records_length: usize,
        own: u64,
        output: *mut u64,
        output_length: usize,
    ) -> Answer;

    pub safe fn jenwyllt_empty_report() -> Report;

    pub safe fn jenwyllt_mean_kept(report: Report, pass: u64) -> MeanAnswer;

    pub fn jenwyllt_read_for_report(
        report: Report,
        bytes: *const u8,
        bytes_length: usize,
        cells: *mut u8,
        cells_length: usize,
        spans: *mut u64,
        spans_length: usize,
        boundaries: *mut u64,
        boundaries_length: usize,
        anchors: *mut u64,
        anchors_length: usize,
    ) -> Opened;

    pub fn jenwyllt_report_sheet(report: Report, bytes: *const u8, bytes_length: usize) -> Reported;

    pub fn jenwyllt_report_run(
        report: Report,
        pass: u64,
        width: u64,
        height: u64,
        cells: *const u8,
        cells_length: usize,
        spans: *const u64,
        spans_length: usize,
        boundaries: *const u64,
        boundaries_length: usize,
        anchors: *const u64,
        anchors_length: usize,
        labels: *mut u32,
        labels_length: usize,
        masks: *mut u16,
        masks_length: usize,
        queue: *mut u32,
        queue_length: usize,
        tallies: *mut u32,
        tallies_length: usize,
        pairs: *mut u32,
        pairs_length: usize,
        records: *mut Region,
        records_length: usize,
        output: *mut u64,
        output_length: usize,
    ) -> Reported;

    pub safe fn jenwyllt_dominance(cells: u32, count_0: u32, count_1: u32, count_2: u32, count_3: u32) -> DominanceAnswer;
    pub fn jenwyllt_maps_of_day(
        terms: *const u64,
        terms_length: usize,
        records: *const u64,
        records_length: usize,
        year: u64,
        month: u64,
        day: u64,
        output: *mut u64,
        output_length: usize,
    ) -> Answer;

    pub safe fn jenwyllt_hypotenuse(x: f64, y: f64) -> Outcome;

    pub safe fn jenwyllt_hypot(x: f64, y: f64) -> f64;
}
