//! The Rust original judges generated maps, sheets and pairs of doubles: the program of oracle/, built and run here from the
//! checkout that `BROODMAP_SRC` names (oracle/README.md). There is none on most machines, so that these tests are left out unless
//! they are asked for: `BROODMAP_SRC=CHECKOUT cargo test --offline -- --include-ignored`.

use jenwyllt::{
    Boundary, KeptLists, PartitionLists, Point, Refusal, Region, Sheet, Span, hypotenuse, kept_boundaries, kept_boundaries_into,
    partition, partition_into, read_sheet,
};
use std::fmt::Write as _;
use std::io::Write as _;
use std::path::{Path, PathBuf};
use std::process::{Command, Stdio};
use std::sync::LazyLock;
use std::{env, thread};

// ---- the oracle's program

static PROGRAM: LazyLock<PathBuf> = LazyLock::new(|| {
    assert!(env::var_os("BROODMAP_SRC").is_some_and(|root| !root.is_empty()), "BROODMAP_SRC is not set");
    let folder = Path::new(env!("CARGO_MANIFEST_DIR")).join("../../oracle");
    let build = ["build", "--release", "--offline", "--target-dir", "target"];
    let built = Command::new(env!("CARGO")).args(build).current_dir(&folder).status().expect("cargo starts");
    assert!(built.success(), "the oracle is not built");
    folder.join("target/release/oracle")
});

/// What the oracle prints, line by line.
fn judged(arguments: &[&str], input: Vec<u8>) -> Vec<String> {
    let mut child =
        Command::new(&*PROGRAM).args(arguments).stdin(Stdio::piped()).stdout(Stdio::piped()).spawn().expect("the oracle starts");
    let mut stdin = child.stdin.take().expect("a pipe");
    let writer = thread::spawn(move || stdin.write_all(&input));
    let output = child.wait_with_output().expect("the oracle ends");
    writer.join().expect("the writer ends").expect("all input is read");
    assert!(output.status.success());
    String::from_utf8(output.stdout).expect("plain text").lines().map(String::from).collect()
}

/// Sheets one after the other, each behind its length, as `--many` reads them.
fn framed(sheets: &[Vec<u8>]) -> Vec<u8> {
    sheets.iter().flat_map(|sheet| [&(sheet.len() as u64).to_le_bytes(), sheet.as_slice()].concat()).collect()
}

/// The numbers under a key of a line of JSON, in their order.
fn numbers(line: &str, key: &str) -> Vec<u64> {
    let (_, behind) = line.split_once(&format!("\"{key}\":")).unwrap_or_else(|| panic!("no {key}: {line}"));
    let value = behind.split('"').next().expect("a value");
    value
        .split(|c: char| !c.is_ascii_digit())
        .filter(|digits| !digits.is_empty())
        .map(|digits| digits.parse().expect("64 bits"))
        .collect()
}

fn answer(line: &str) -> Result<u64, Refusal> {
    match (numbers(line, "number")[0], numbers(line, "value")[0]) {
        (0, value) => Ok(value),
        (number, place) => Err(Refusal { number, place }),
    }
}

/// The numbers of a list of entries.
fn flattened<const COUNT: usize, N, E: Copy + Into<[N; COUNT]>>(list: &[E]) -> Vec<N> {
    list.iter().flat_map(|entry| (*entry).into()).collect()
}

fn widened(list: &[u32]) -> Vec<u64> {
    list.iter().copied().map(u64::from).collect()
}

// ---- generated maps

/// SplitMix64.
struct Random(u64);

impl Random {
    fn number(&mut self) -> u64 {
        self.0 = self.0.wrapping_add(0x9e37_79b9_7f4a_7c15);
        let z = (self.0 ^ self.0 >> 30).wrapping_mul(0xbf58_476d_1ce4_e5b9);
        let z = (z ^ z >> 27).wrapping_mul(0x94d0_49bb_1331_11eb);
        z ^ z >> 31
    }

    fn below(&mut self, limit: u64) -> u64 {
        self.number() % limit
    }

    fn once_in(&mut self, count: u64) -> bool {
        self.below(count) == 0
    }

    /// Walkable in most of its cells or in few, cut by spans of which a few are faulty.
    fn map(&mut self) -> Sheet {
        let (width, height) = (1 + self.below(40), 1 + self.below(40));
        let walkable = 3 + self.below(8);
        let cells = (0..width * height).map(|_| 2 * self.below(128) as u8 + u8::from(self.below(10) < walkable)).collect();
        let spans = if self.once_in(100) { 256 } else { self.below(12) };
        let spans = (0..spans).map(|_| self.span(width, height)).collect();
        Sheet { pass: self.below(5), width, height, cells, spans, boundaries: vec![], anchors: vec![] }
    }

    fn span(&mut self, width: u64, height: u64) -> Span {
        // On the corners of cells, or anywhere.
        let unit = if self.once_in(2) { 8 } else { 1 };
        let mut end = |side: u64| self.below(8 / unit * side + 1) * unit;
        let [x, y] = [end(width), end(height)];
        let ends = match self.below(300) {
            0 => [x, y, x, y],
            1 => [x, y, 8 * width + 1, y],
            2 => [x, self.number(), x, y],
            3..150 => [x, y, x, self.below(8 * height + 1)],
            _ => [x, y, self.below(8 * width + 1), self.below(8 * height + 1)],
        };
        ends.into()
    }

    /// A corridor, or rooms of one cell each, cut at borders of cells, with ramps and anchors; a few have a fault.
    fn pass(&mut self) -> Sheet {
        let pass = 1 + self.below(3);
        let (width, height) = if pass == 3 { (3 + self.below(4), 3) } else { (3 + self.below(20), 1 + self.below(2)) };
        let cell = |random: &mut Self| match random.below(12) {
            kind if pass == 3 => u8::from(kind < 7),
            0 => 0,
            kind => 1 + 2 * u8::from(kind < 4) + 4 * u8::from(random.once_in(8)),
        };
        let cells = (0..width * height).map(|_| cell(self)).collect();
        let borders: Vec<_> = if pass == 3 {
            let beside = (1..width).flat_map(|x| (0..height).map(move |y| [x, y, x, y + 1]));
            let below = (0..width).flat_map(|x| (1..height).map(move |y| [x, y, x + 1, y]));
            beside.chain(below).collect()
        } else {
            (1..width).map(|x| [x, 0, x, height]).collect()
        };
        let spans: Vec<Span> =
            borders.into_iter().filter(|_| !self.once_in(3)).map(|border| border.map(|side| 8 * side).into()).collect();
        let boundaries = spans.iter().map(|span| self.boundary(*span, pass < 3)).collect();
        let anchors = (0..self.below(3)).map(|_| Point { x: self.below(width), y: self.below(height) }).collect();
        let mut sheet = Sheet { pass, width, height, cells, spans, boundaries, anchors };
        if self.once_in(10) {
            self.damage(&mut sheet);
        }
        sheet
    }

    /// On a span, either way round.
    fn boundary(&mut self, Span { start, end }: Span, ramps: bool) -> Boundary {
        let (start, end) = if self.once_in(2) { (start, end) } else { (end, start) };
        let width = (4 * (1 + self.below(6))) as f64;
        let [kind, ramp, lower, upper] =
            if !ramps || self.once_in(2) { [0; 4] } else { [1 + self.below(2), self.below(2), 0, self.below(2)] };
        Boundary { start, end, width, kind, ramp, lower, upper }
    }

    /// What numbers 4 to 9 refuse.
    fn damage(&mut self, sheet: &mut Sheet) {
        let place = |random: &mut Self, length: usize| random.below(length.max(1) as u64) as usize;
        let (span, boundary, cell) =
            (place(self, sheet.spans.len()), place(self, sheet.boundaries.len()), place(self, sheet.cells.len()));
        let fault = self.below(10) as usize;
        let changed = [f64::INFINITY.to_bits(), 3, 1 << 32, 8, 8][fault % 5];
        match fault {
            0..5 => sheet.boundaries.iter_mut().skip(boundary).take(1).for_each(|entry| {
                let mut numbers = <[u64; 9]>::from(*entry);
                numbers[4 + fault] = changed;
                *entry = numbers.into();
            }),
            5 => sheet.pass = self.below(5),
            6 => sheet.spans.iter_mut().skip(span).take(1).for_each(|entry| {
                let mut numbers = <[u64; 4]>::from(*entry);
                numbers[self.below(4) as usize] += 500;
                *entry = numbers.into();
            }),
            7 => sheet.spans.iter_mut().skip(span).take(1).for_each(|entry| entry.end = entry.start),
            8 => sheet.anchors.push(Point { x: self.below(2) * sheet.width, y: sheet.height }),
            _ => sheet.cells[cell] = self.number() as u8,
        }
    }

    /// Numbers of all lengths.
    fn wide(&mut self) -> u64 {
        let shift = self.below(64);
        self.number() >> shift
    }
}

fn written(sheet: &Sheet) -> Vec<u8> {
    let mut bytes = vec![];
    let mut put = |mut number: u64| {
        while number >= 0x80 {
            bytes.push(number as u8 | 0x80);
            number >>= 7;
        }
        bytes.push(number as u8);
    };
    [1, sheet.pass, sheet.width, sheet.height].into_iter().for_each(&mut put);
    sheet.cells.iter().for_each(|cell| put(u64::from(*cell)));
    let lists = [
        (sheet.spans.len(), flattened(&sheet.spans)),
        (sheet.boundaries.len(), flattened(&sheet.boundaries)),
        (sheet.anchors.len(), flattened(&sheet.anchors)),
    ];
    for (count, list) in lists {
        put(count as u64);
        list.into_iter().for_each(&mut put);
    }
    bytes
}

// ---- comparisons

#[test]
#[ignore = "needs BROODMAP_SRC"]
fn partitions() {
    let mut random = Random(1);
    let maps: Vec<_> = (0..3000).map(|_| random.map()).collect();
    let sheets: Vec<_> = maps.iter().map(written).collect();
    let lines = judged(&["partition", "--many"], framed(&sheets));
    assert_eq!(lines.len(), maps.len());
    let mut refused = 0;
    for (map, line) in maps.iter().zip(&lines) {
        let cut = partition(map.width, map.height, &map.cells, &map.spans);
        assert_eq!(cut.as_ref().map(|cut| cut.regions).map_err(|refusal| *refusal), answer(line), "{map:?}");
        let Ok(cut) = cut else {
            refused += 1;
            continue;
        };
        assert_eq!(widened(&cut.labels), numbers(line, "labels"), "{map:?}");
        assert_eq!(widened(&flattened(&cut.tallies)), numbers(line, "tallies"), "{map:?}");
        assert_eq!(widened(&flattened(&cut.pairs)), numbers(line, "pairs"), "{map:?}");
    }
    assert!((20..1000).contains(&refused), "{refused} refused");
}

#[test]
#[ignore = "needs BROODMAP_SRC"]
fn partitions_with_few_rows() {
    const ROWS: usize = 5;
    let mut random = Random(2);
    let maps: Vec<_> = (0..1000).map(|_| random.map()).collect();
    let sheets: Vec<_> = maps.iter().map(written).collect();
    let rows = ROWS.to_string();
    let lines = judged(&["partition", "--many", "--pairs", &rows], framed(&sheets));
    assert_eq!(lines.len(), maps.len());
    let mut short = 0;
    for (map, line) in maps.iter().zip(&lines) {
        let (mut labels, mut tallies, mut pairs) = (vec![9; map.cells.len()], vec![9; 2 * map.spans.len()], [9; 3 * ROWS]);
        let lists = PartitionLists {
            labels: &mut labels,
            masks: &mut vec![9; map.cells.len()],
            queue: &mut vec![9; map.cells.len()],
            tallies: &mut tallies,
            pairs: &mut pairs,
        };
        let result = partition_into(map.width, map.height, &map.cells, &flattened(&map.spans), lists);
        assert_eq!(result, answer(line), "{map:?}");
        if let Err(Refusal { number: 12, .. }) = result {
            short += 1;
            assert_eq!(pairs, [0; 3 * ROWS]);
            assert_eq!(widened(&labels), numbers(line, "labels"), "{map:?}");
            assert_eq!(widened(&tallies), numbers(line, "tallies"), "{map:?}");
        }
    }
    assert!((100..900).contains(&short), "{short} with too few rows");
}

/// A record's numbers as the oracle prints them: the four edges as bits.
fn record_numbers(record: &Region) -> Vec<u64> {
    let edges = [record.min_x, record.min_y, record.max_x, record.max_y].map(f64::to_bits);
    let shape = [record.ramp_cells as u64, record.elevations.into()];
    let counts = record.elevation_counts.map(|count| count as u64);
    [&[record.cells as u64][..], &edges, &shape, &counts].concat()
}

#[test]
#[ignore = "needs BROODMAP_SRC"]
fn kept() {
    let mut random = Random(5);
    let maps: Vec<_> = (0..6000).map(|_| random.pass()).collect();
    let sheets: Vec<_> = maps.iter().map(written).collect();
    let lines = judged(&["full", "--many"], framed(&sheets));
    assert_eq!(lines.len(), maps.len());
    let mut refused = [0; 10];
    let mut removed = [0; 3];
    for (map, line) in maps.iter().zip(&lines) {
        match answer(line) {
            Ok(rows) => removed[map.pass as usize - 1] += map.boundaries.len() - rows as usize,
            Err(refusal) => refused[refusal.number as usize] += 1,
        }
    }
    assert!(removed.iter().all(|count| *count > 100) && refused[4..].iter().all(|count| *count > 15), "{removed:?} {refused:?}");
    for (map, line) in maps.iter().zip(&lines) {
        let kept = kept_boundaries(map);
        assert_eq!(kept.as_ref().map(|kept| kept.rows.len() as u64).map_err(|refusal| *refusal), answer(line), "{map:?}");
        let Ok(kept) = kept else { continue };
        assert_eq!(flattened(&kept.rows), numbers(line, "rows"), "{map:?}");
        assert_eq!(kept.records.iter().flat_map(record_numbers).collect::<Vec<_>>(), numbers(line, "records"), "{map:?}");
        assert_eq!(widened(&kept.partition.labels), numbers(line, "labels"), "{map:?}");
        assert_eq!(widened(&flattened(&kept.partition.tallies)), numbers(line, "tallies"), "{map:?}");
        assert_eq!(widened(&flattened(&kept.partition.pairs)), numbers(line, "pairs"), "{map:?}");
    }
}

#[test]
#[ignore = "needs BROODMAP_SRC"]
fn kept_with_little_room() {
    const RECORDS: usize = 8;
    const ROWS: usize = 6;
    let mut random = Random(6);
    let maps: Vec<_> = (0..1000).map(|_| random.pass()).collect();
    let sheets: Vec<_> = maps.iter().map(written).collect();
    let options = ["full", "--many", "--records", &RECORDS.to_string(), "--pairs", &ROWS.to_string()];
    let lines = judged(&options, framed(&sheets));
    assert_eq!(lines.len(), maps.len());
    let mut short = [0; 2];
    for (map, line) in maps.iter().zip(&lines) {
        let (mut labels, mut tallies, mut pairs) = (vec![9; map.cells.len()], vec![9; 2 * map.spans.len()], [9; 3 * ROWS]);
        let partition = PartitionLists {
            labels: &mut labels,
            masks: &mut vec![9; map.cells.len()],
            queue: &mut vec![9; map.cells.len()],
            tallies: &mut tallies,
            pairs: &mut pairs,
        };
        let lists =
            KeptLists { partition, records: &mut [Region::default(); RECORDS], output: &mut vec![9; 5 * map.boundaries.len()] };
        let result = kept_boundaries_into(map.into(), lists);
        assert_eq!(result, answer(line), "{map:?}");
        let Err(Refusal { number: number @ 11..13, .. }) = result else { continue };
        short[number as usize - 11] += 1;
        assert_eq!(widened(&labels), numbers(line, "labels"), "{map:?}");
        let (count, filled) = if number == 12 { (0, numbers(line, "tallies")) } else { (9, vec![0; tallies.len()]) };
        assert_eq!(widened(&tallies), filled, "{map:?}");
        assert_eq!(pairs, [count; 3 * ROWS]);
    }
    assert!(short.iter().all(|count| *count > 50), "{short:?} refused 11 and 12");
}

#[test]
#[ignore = "needs BROODMAP_SRC"]
fn sheets() {
    let mut random = Random(3);
    let mut sheet = || {
        let mut map = random.map();
        map.boundaries = (0..random.below(4)).map(|_| [(); 9].map(|()| random.wide()).into()).collect();
        map.anchors = (0..random.below(4)).map(|_| [(); 2].map(|()| random.wide()).into()).collect();
        let mut bytes = written(&map);
        let place = random.below(bytes.len() as u64) as usize;
        match random.below(5) {
            0 => bytes.truncate(place),
            1 => bytes[place] = random.number() as u8,
            2 => bytes.insert(place, 0xff),
            3 => bytes[random.below(4) as usize] = random.number() as u8,
            _ => {}
        }
        bytes
    };
    let sheets: Vec<_> = (0..3000).map(|_| sheet()).collect();
    let lines = judged(&["read", "--many"], framed(&sheets));
    assert_eq!(lines.len(), sheets.len());
    let mut refused = 0;
    for (bytes, line) in sheets.iter().zip(&lines) {
        let read = read_sheet(bytes);
        assert_eq!(read.as_ref().map(|_| 0).map_err(|refusal| *refusal), answer(line), "{bytes:?}");
        let Ok(read) = read else {
            refused += 1;
            continue;
        };
        let opening = [read.pass, read.width, read.height];
        assert_eq!(opening, ["pass", "width", "height"].map(|key| numbers(line, key)[0]));
        assert_eq!(read.cells.iter().copied().map(u64::from).collect::<Vec<_>>(), numbers(line, "cells"));
        assert_eq!(flattened(&read.spans), numbers(line, "spans"));
        assert_eq!(flattened(&read.boundaries), numbers(line, "boundaries"));
        assert_eq!(flattened(&read.anchors), numbers(line, "anchors"));
    }
    assert!((500..2500).contains(&refused), "{refused} refused");
}

#[test]
#[ignore = "needs BROODMAP_SRC"]
fn hypotenuses() {
    let mut random = Random(4);
    let mut argument = |kind| match kind {
        // Halves, as the passes have them.
        0 => random.below(16384) as f64 / 2.0,
        // In range, or a little outside.
        1 => f64::from_bits(random.below(2) << 63 | (956 + random.below(84)) << 52 | random.number() >> 12),
        _ => f64::from_bits(random.number()),
    };
    let pairs: Vec<_> = (0..30_000).map(|i| [argument(i % 3), argument(i % 3)]).collect();
    let mut input = String::new();
    for [x, y] in &pairs {
        writeln!(input, "{:016x} {:016x}", x.to_bits(), y.to_bits()).expect("a string grows");
    }
    let lines = judged(&["hypot"], input.into_bytes());
    assert_eq!(lines.len(), pairs.len());
    for ([x, y], line) in pairs.into_iter().zip(&lines) {
        let printed = match hypotenuse(x, y) {
            Ok(root) => format!("{:016x}", root.to_bits()),
            Err(refusal) => format!("refused {}", refusal.number),
        };
        assert_eq!(printed, line.to_lowercase(), "{x} {y}");
    }
}
