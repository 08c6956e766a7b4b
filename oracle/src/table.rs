//! The checks of document 01's table of refusals, numbers 1 to 9, on a map as lent. They are the harness's own: the Rust has
//! panics or errors in their place, or no check at all.

use crate::sheet::{ANCHOR_NUMBERS, BOUNDARY_NUMBERS, MAX_ENTRIES, MAX_SIDE, Map, Refusal, SPAN_NUMBERS};

const PIXELS_PER_CELL: u64 = 8;
const MAX_WIDTH_PIXELS: f64 = 65_536.0;
const MAX_KIND: u64 = 2;
const MAX_RAMP_ELEVATION: u64 = 7;
const MAX_CELL_ELEVATION: u8 = 3;

/// The checks of a call that runs a pass, in the order of their numbers.
pub fn check_pass(map: &Map) -> Result<(), Refusal> {
    sides(map)?;
    cell_count(map)?;
    entries(&map.spans, SPAN_NUMBERS)?;
    entries(&map.boundaries, BOUNDARY_NUMBERS)?;
    entries(&map.anchors, ANCHOR_NUMBERS)?;
    if !(1..=3).contains(&map.pass) {
        return Err(Refusal::new(4, 0));
    }
    spans(map)?;
    first(7, map.boundaries.chunks(BOUNDARY_NUMBERS), |boundary| boundary_fits(map, boundary))?;
    first(8, map.anchors.chunks(ANCHOR_NUMBERS), |anchor| anchor[0] < map.width && anchor[1] < map.height)?;
    first(9, map.cells.chunks(1), |cell| cell[0] & 1 == 0 || cell[0] >> 2 <= MAX_CELL_ELEVATION)
}

/// Partitioning alone skips 4, 7, 8 and 9, and is lent no boundaries or anchors.
pub fn check_partition(map: &Map) -> Result<(), Refusal> {
    sides(map)?;
    cell_count(map)?;
    entries(&map.spans, SPAN_NUMBERS)?;
    spans(map)
}

fn sides(map: &Map) -> Result<(), Refusal> {
    let side = 1..=MAX_SIDE;
    holds(1, side.contains(&map.width) && side.contains(&map.height))
}

fn cell_count(map: &Map) -> Result<(), Refusal> {
    holds(2, map.cells.len() as u64 == map.width * map.height)
}

fn entries(list: &[u64], numbers: usize) -> Result<(), Refusal> {
    holds(3, list.len().is_multiple_of(numbers) && list.len() / numbers <= MAX_ENTRIES as usize)
}

fn spans(map: &Map) -> Result<(), Refusal> {
    for (index, span) in map.spans.chunks(SPAN_NUMBERS).enumerate() {
        if !inside(map, span) {
            return Err(Refusal::new(5, index));
        }
        if span[..2] == span[2..] {
            return Err(Refusal::new(6, index));
        }
    }
    Ok(())
}

/// Both endpoints, x, y, x, y, within the pixel edges of the map, edges included.
fn inside(map: &Map, ends: &[u64]) -> bool {
    let (right, bottom) = (PIXELS_PER_CELL * map.width, PIXELS_PER_CELL * map.height);
    ends[0] <= right && ends[1] <= bottom && ends[2] <= right && ends[3] <= bottom
}

fn boundary_fits(map: &Map, boundary: &[u64]) -> bool {
    let width = f64::from_bits(boundary[4]);
    let (kind, tail) = (boundary[5], &boundary[6..]);
    inside(map, &boundary[..4])
        && width.is_finite()
        && width.is_sign_positive()
        && width <= MAX_WIDTH_PIXELS
        && kind <= MAX_KIND
        && tail[0] <= u64::from(u32::MAX)
        && tail[1] <= MAX_RAMP_ELEVATION
        && tail[2] <= MAX_RAMP_ELEVATION
        && (kind != 0 || tail == [0, 0, 0])
}

fn holds(number: u64, condition: bool) -> Result<(), Refusal> {
    if condition { Ok(()) } else { Err(Refusal::new(number, 0)) }
}

fn first<'a, T: 'a>(number: u64, mut entries: impl Iterator<Item = &'a [T]>, fits: impl Fn(&[T]) -> bool) -> Result<(), Refusal> {
    match entries.position(|entry| !fits(entry)) {
        None => Ok(()),
        Some(place) => Err(Refusal::new(number, place)),
    }
}
