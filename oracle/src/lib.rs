//! The parts of broodmap-analysis that the copied files lean on, and the harness that runs them.
//!
//! `areas` and the three files below `topology` are broodmap's own, copied at build time and compiled unchanged. What stands in
//! this file has the shapes of its `lib.rs` and `bases/mod.rs` (MIT OR Apache-2.0), cut down to what is used.

pub mod hypotenuse;
pub mod sheet;
pub mod table;
pub mod topology;

include!(concat!(env!("OUT_DIR"), "/crate_modules.rs"));

pub use areas::{AreaError, BoundaryAssessment, BoundarySpan, PartitionArea, SpanPartition};

const ORTHOGONAL_COST: u64 = 1_000;
const DIAGONAL_COST: u64 = 1_414;

#[derive(Debug, Copy, Clone, Eq, PartialEq, Ord, PartialOrd, Hash)]
pub struct WalkPosition {
    pub x: u32,
    pub y: u32,
}

#[derive(Debug, Copy, Clone, Eq, PartialEq, Ord, PartialOrd, Hash)]
pub struct PixelPosition {
    pub x: u32,
    pub y: u32,
}

#[derive(Debug, Copy, Clone, Eq, PartialEq)]
pub struct TerrainCell {
    pub walkable: bool,
    pub elevation: u8,
    pub ramp: bool,
}

#[derive(Debug, Clone, Eq, PartialEq)]
pub struct TerrainGrid {
    width: u32,
    height: u32,
    cells: Vec<TerrainCell>,
}

impl TerrainGrid {
    /// The caller has checked the shape. Elevation 3 is allowed here, as in document 01; broodmap's own constructor stops at 2.
    pub fn new(width: u32, height: u32, cells: Vec<TerrainCell>) -> Self {
        assert!(width > 0 && height > 0 && cells.len() == width as usize * height as usize);
        Self { width, height, cells }
    }
}

// Word for word, which tests/source.rs checks.
#[rustfmt::skip]
impl TerrainGrid {
    pub fn width(&self) -> u32 {
        self.width
    }

    pub fn height(&self) -> u32 {
        self.height
    }

    pub fn cells(&self) -> &[TerrainCell] {
        &self.cells
    }

    pub fn cell(&self, position: WalkPosition) -> Option<&TerrainCell> {
        self.index(position).and_then(|index| self.cells.get(index))
    }

    fn index(&self, position: WalkPosition) -> Option<usize> {
        if position.x >= self.width || position.y >= self.height {
            return None;
        }
        let index = (position.y as usize)
            .checked_mul(self.width as usize)?
            .checked_add(position.x as usize)?;
        (index < self.cells.len()).then_some(index)
    }

    fn position(&self, index: usize) -> WalkPosition {
        let width = self.width as usize;
        WalkPosition {
            x: (index % width) as u32,
            y: (index / width) as u32,
        }
    }

    fn neighbors(&self, position: WalkPosition) -> impl Iterator<Item = (WalkPosition, u64)> + '_ {
        const DIRECTIONS: [(i32, i32); 8] = [
            (0, -1),
            (-1, 0),
            (1, 0),
            (0, 1),
            (-1, -1),
            (1, -1),
            (-1, 1),
            (1, 1),
        ];

        DIRECTIONS
            .into_iter()
            .filter_map(move |(delta_x, delta_y)| {
                let x = position.x.checked_add_signed(delta_x)?;
                let y = position.y.checked_add_signed(delta_y)?;
                let next = WalkPosition { x, y };
                let next_cell = self.cell(next)?;
                if !next_cell.walkable {
                    return None;
                }

                let diagonal = delta_x != 0 && delta_y != 0;
                if diagonal {
                    let side_a = WalkPosition { x, y: position.y };
                    let side_b = WalkPosition { x: position.x, y };
                    if !self.cell(side_a).is_some_and(|cell| cell.walkable)
                        || !self.cell(side_b).is_some_and(|cell| cell.walkable)
                    {
                        return None;
                    }
                }
                Some((
                    next,
                    if diagonal {
                        DIAGONAL_COST
                    } else {
                        ORTHOGONAL_COST
                    },
                ))
            })
    }
}
