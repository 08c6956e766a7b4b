//! The maps that are timed, made by seeded code: the same in every run.

use oracle::sheet::Map;

/// xorshift64*.
pub struct Random(pub u64);

impl Random {
    pub fn next(&mut self) -> u64 {
        self.0 ^= self.0 >> 12;
        self.0 ^= self.0 << 25;
        self.0 ^= self.0 >> 27;
        self.0.wrapping_mul(0x2545_f491_4f6c_dd1d)
    }

    pub fn below(&mut self, bound: u64) -> u64 {
        self.next() % bound
    }

    pub fn shuffle<T>(&mut self, list: &mut [T]) {
        for index in (1..list.len()).rev() {
            list.swap(index, self.below(index as u64 + 1) as usize);
        }
    }
}

const WALKABLE: u8 = 1;
const RAMP: u8 = 2;
const PIXELS: u64 = 8;
const MAX_ENTRIES: usize = 256;

/// Kind, ramp id, lower and upper elevation.
type Tail = [u64; 4];
const PLAIN: Tail = [0; 4];

pub struct Named {
    pub name: &'static str,
    pub about: &'static str,
    pub map: Map,
}

pub fn all() -> Vec<Named> {
    vec![
        Named { name: "league", about: "rooms and corridors", map: rooms(1, 512, 13, 60, 12) },
        Named { name: "large", about: "rooms and corridors", map: rooms(2, 1_024, 26, 256, 24) },
        Named { name: "open", about: "no wall, 256 spans across the whole map: the longest partition", map: open(3) },
        Named { name: "comb", about: "512 corridors cut by each of 256 spans: the longest pass 2", map: comb() },
        Named { name: "checkered", about: "blocks of 2 by 2 cells, 256 spans: pairs in the worst order", map: checkered(true) },
        Named { name: "checkered-rising", about: "the same turned upside down: pairs in the best order", map: checkered(false) },
        Named { name: "mouths", about: "128 ramps and 128 mouths at one region: most proposals of pass 1", map: mouths(4) },
        Named { name: "stars", about: "128 ramps and 128 mouths, each with 512 pairs: the longest pass 1", map: stars() },
        Named { name: "interiors", about: "127 sealed interiors: most proposals of pass 2", map: interiors() },
        Named { name: "hub", about: "256 boundaries at one region: the longest pass 3", map: hub(5) },
    ]
}

/// A map whose spans are its boundaries' endpoints, in any order given.
struct Sketch {
    map: Map,
}

impl Sketch {
    fn new(width: u64, height: u64, cell: u8) -> Self {
        let cells = vec![cell; (width * height) as usize];
        Self { map: Map { pass: 1, width, height, cells, spans: vec![], boundaries: vec![], anchors: vec![] } }
    }

    fn fill(&mut self, xs: std::ops::Range<u64>, ys: std::ops::Range<u64>, cell: u8) {
        for y in ys {
            let row = (y * self.map.width) as usize;
            self.map.cells[row + xs.start as usize..row + xs.end as usize].fill(cell);
        }
    }

    fn cut(&mut self, span: [u64; 4], width: u64, tail: Tail) {
        self.map.spans.extend(span);
        self.map.boundaries.extend(span);
        self.map.boundaries.push((width as f64).to_bits());
        self.map.boundaries.extend(tail);
    }

    fn count(&self) -> usize {
        self.map.spans.len() / 4
    }
}

/// Rooms in a square, each two neighbours joined by a corridor, on plateaus of three by three rooms. The corridors nearest to the middle
/// of the map have boundaries, as many as are asked for: one, or where the elevations differ one at each end of a ramp and one between.
fn rooms(seed: u64, side: u64, rooms: u64, boundaries: usize, anchors: usize) -> Map {
    let mut random = Random(seed);
    let mut sketch = Sketch::new(side, side, 0);
    let pitch = side / rooms;
    let wall = pitch / 10;
    let plateaus: Vec<u64> = (0..rooms * rooms).map(|_| random.below(3)).collect();
    let elevation = |column: u64, row: u64| plateaus[(row / 3 * rooms + column / 3) as usize];
    let plain = |elevation: u64| WALKABLE + 4 * elevation as u8;
    for row in 0..rooms {
        for column in 0..rooms {
            let (left, top) = (column * pitch, row * pitch);
            sketch.fill(left + wall..left + pitch - wall, top + wall..top + pitch - wall, plain(elevation(column, row)));
            for _ in 0..8 {
                let x = left + wall + 8 + random.below(pitch - 2 * wall - 24);
                let y = top + wall + 8 + random.below(pitch - 2 * wall - 24);
                sketch.fill(x..x + 1 + random.below(8), y..y + 1 + random.below(8), 0);
            }
        }
    }

    let mut openings: Vec<_> = (0..rooms)
        .flat_map(|row| (0..rooms).flat_map(move |column| [(column, row, true), (column, row, false)]))
        .filter(|(column, row, across)| if *across { column + 1 < rooms } else { row + 1 < rooms })
        .collect();
    openings.sort_by_key(|(column, row, _)| (2 * column + 1).abs_diff(rooms).pow(2) + (2 * row + 1).abs_diff(rooms).pow(2));
    for (id, (column, row, across)) in openings.into_iter().enumerate() {
        let here = elevation(column, row);
        let there = if across { elevation(column + 1, row) } else { elevation(column, row + 1) };
        let breadth = 4 + random.below(pitch / 6);
        let offset = wall + random.below(pitch - 2 * wall - breadth);
        // Along the corridor and across it, in cells.
        let (start, end, low) = if across {
            ((column + 1) * pitch - wall, (column + 1) * pitch + wall, row * pitch + offset)
        } else {
            ((row + 1) * pitch - wall, (row + 1) * pitch + wall, column * pitch + offset)
        };
        let middle = (start + end) / 2;
        let ramp = if here == there { 0 } else { RAMP };
        let mut paint = |from: u64, to: u64, cell: u8| {
            if across { sketch.fill(from..to, low..low + breadth, cell) } else { sketch.fill(low..low + breadth, from..to, cell) }
        };
        paint(start, middle, plain(here) + ramp);
        paint(middle, end, plain(there) + ramp);
        let span = |along: u64| {
            let (along, from, to) = (PIXELS * along, PIXELS * low, PIXELS * (low + breadth));
            if across { [along, from, along, to] } else { [from, along, to, along] }
        };
        let tail = |kind: u64| [kind, id as u64, here.min(there), here.max(there)];
        let (first, second) = if here < there { (1, 2) } else { (2, 1) };
        let cuts: Vec<_> =
            if ramp == 0 { vec![(middle, PLAIN)] } else { vec![(start, tail(first)), (middle, PLAIN), (end, tail(second))] };
        for (along, tail) in cuts {
            if sketch.count() < boundaries {
                sketch.cut(span(along), PIXELS * breadth, tail);
            }
        }
    }
    for _ in 0..anchors {
        let (column, row) = (random.below(rooms), random.below(rooms));
        sketch.map.anchors.extend([column * pitch + pitch / 2, row * pitch + pitch / 2]);
    }
    sketch.map
}

/// Nothing blocked, and every span from one edge to the other.
fn open(seed: u64) -> Map {
    let mut random = Random(seed);
    let side = 1_024;
    let mut sketch = Sketch::new(side, side, WALKABLE);
    for index in 0..MAX_ENTRIES {
        let (from, to) = (random.below(PIXELS * side + 1), random.below(PIXELS * side + 1));
        let span = if index % 2 == 0 { [0, from, PIXELS * side, to] } else { [from, 0, to, PIXELS * side] };
        sketch.cut(span, 64, PLAIN);
    }
    sketch.map
}

/// Every second row is a corridor, and every span crosses them all: as many pairs and regions as spans can make.
fn comb() -> Map {
    let side = 1_024;
    let mut sketch = Sketch::new(side, side, 0);
    for row in 0..side / 2 {
        sketch.fill(0..side, 2 * row..2 * row + 1, WALKABLE);
    }
    for index in 0..MAX_ENTRIES as u64 {
        let x = 4 * PIXELS * index + 2 * PIXELS;
        sketch.cut([x, 0, x, PIXELS * side], 64, PLAIN);
    }
    sketch.map
}

/// Every second block of 2 by 2 cells is walkable, and every span goes from the left edge to the right one, up or down.
fn checkered(up: bool) -> Map {
    let mut random = Random(6);
    let side = 1_024;
    let mut sketch = Sketch::new(side, side, 0);
    for row in 0..side / 2 {
        for column in 0..side / 4 {
            let x = 4 * column + 2 * (row % 2);
            sketch.fill(x..x + 2, 2 * row..2 * row + 2, WALKABLE);
        }
    }
    for _ in 0..MAX_ENTRIES {
        let (low, high) = (random.below(PIXELS * side / 2), PIXELS * side - random.below(PIXELS * side / 2));
        let span = if up { [0, high, PIXELS * side, low] } else { [0, low, PIXELS * side, high] };
        sketch.cut(span, 64, PLAIN);
    }
    sketch.map
}

/// One region with 128 ramps and 128 mouths, all within a mouth's distance of each other: 64 alcoves, four equal spans at each. The mouths are
/// wide enough to be broad.
fn mouths(seed: u64) -> Map {
    let mut random = Random(seed);
    let (mut sketch, mut spans) = alcoves(&mut random, 14, 5);
    spans.truncate(MAX_ENTRIES / 4);
    let mut cuts: Vec<_> = spans.into_iter().enumerate().flat_map(|(alcove, span)| [(alcove % 2 == 0, span); 4]).collect();
    random.shuffle(&mut cuts);
    for (id, (ramp, span)) in cuts.into_iter().enumerate() {
        let tail = if ramp { [1, id as u64, 0, 1] } else { PLAIN };
        sketch.cut(span, if ramp { 8 } else { 16 + random.below(64) }, tail);
    }
    sketch.map
}

/// One region with 256 alcoves, a boundary at each.
fn hub(seed: u64) -> Map {
    let mut random = Random(seed);
    let (mut sketch, spans) = alcoves(&mut random, 28, 10);
    for span in spans.into_iter().take(MAX_ENTRIES) {
        sketch.cut(span, 16 + random.below(64), PLAIN);
    }
    sketch.map
}

/// Corridors with alcoves of one cell, below at even columns and above at odd ones, joined at the left; and the alcoves' borders, shuffled.
fn alcoves(random: &mut Random, columns: u64, corridors: u64) -> (Sketch, Vec<[u64; 4]>) {
    let (width, height) = (columns + 1, 3 * corridors + 1);
    let mut sketch = Sketch::new(width, height, 0);
    sketch.fill(0..1, 0..height, WALKABLE);
    let mut spans = Vec::new();
    for corridor in 0..=corridors {
        let row = 3 * corridor;
        sketch.fill(0..width, row..row + 1, WALKABLE);
        for column in 2..width {
            let below = column % 2 == 0;
            if if below { corridor == corridors } else { corridor == 0 } {
                continue;
            }
            let alcove = if below { row + 1 } else { row - 1 };
            let border = if below { row + 1 } else { row };
            sketch.fill(column..column + 1, alcove..alcove + 1, WALKABLE);
            spans.push([PIXELS * column, PIXELS * border, PIXELS * (column + 1), PIXELS * border]);
        }
    }
    random.shuffle(&mut spans);
    (sketch, spans)
}

/// A corridor of 1,024 cells with 512 alcoves, and 256 spans that each cut them all off.
fn stars() -> Map {
    let width = 1_024;
    let mut sketch = Sketch::new(width, 2, WALKABLE);
    (0..width / 2).for_each(|alcove| sketch.fill(2 * alcove..2 * alcove + 1, 1..2, 0));
    for index in 0..MAX_ENTRIES as u64 {
        let tail = if index % 2 == 0 { [1, index, 0, 1] } else { PLAIN };
        sketch.cut([0, PIXELS, PIXELS * width, PIXELS], 64, tail);
    }
    sketch.map
}

/// A row of ramp cells, each cut from the next: the lower and the upper end of one ramp in turn, and a plain cut between each two of them.
/// Every two neighbouring ends seal an interior, so each end serves two.
fn interiors() -> Map {
    let width = MAX_ENTRIES as u64;
    let mut sketch = Sketch::new(width, 1, WALKABLE + RAMP);
    for index in 0..width - 1 {
        let tail = if index % 2 == 1 { PLAIN } else { [1 + index / 2 % 2, 7, 0, 1] };
        let x = PIXELS * (index + 1);
        sketch.cut([x, 0, x, PIXELS], 8, tail);
    }
    sketch.map
}
