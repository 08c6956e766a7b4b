//! What the lent lists hold when a call returns: room beyond the data, refusals, lists without entries.

use jenwyllt::{
    KeptLists, Map, PartitionLists, Refusal, Region, SheetLists, Tally, kept_boundaries_into, partition, partition_into,
    read_sheet, read_sheet_into,
};

const CELLS: [u8; 4] = [1, 1, 0, 1];
const SPANS: [u64; 4] = [8, 0, 8, 8];
const HELD: u32 = 77;

struct Lists {
    labels: Vec<u32>,
    masks: Vec<u16>,
    queue: Vec<u32>,
    tallies: Vec<u32>,
    pairs: Vec<u32>,
}

impl Lists {
    fn new([labels, masks, queue, tallies, pairs]: [usize; 5]) -> Self {
        Self {
            labels: vec![HELD; labels],
            masks: vec![HELD as u16; masks],
            queue: vec![HELD; queue],
            tallies: vec![HELD; tallies],
            pairs: vec![HELD; pairs],
        }
    }

    fn lent(&mut self) -> PartitionLists<'_> {
        PartitionLists {
            labels: &mut self.labels,
            masks: &mut self.masks,
            queue: &mut self.queue,
            tallies: &mut self.tallies,
            pairs: &mut self.pairs,
        }
    }

    fn partition(&mut self, width: u64, height: u64, cells: &[u8], spans: &[u64]) -> Result<u64, Refusal> {
        partition_into(width, height, cells, spans, self.lent())
    }

    fn as_they_were(&self) -> bool {
        let numbers = [&self.labels, &self.queue, &self.tallies, &self.pairs];
        numbers.into_iter().flatten().all(|entry| *entry == HELD) && self.masks.iter().all(|entry| *entry == HELD as u16)
    }
}

fn refusal(number: u64, place: u64) -> Refusal {
    Refusal { number, place }
}

#[test]
fn longer_lists_keep_what_is_beyond() {
    let mut lists = Lists::new([5, 6, 7, 3, 7]);
    assert_eq!(lists.partition(4, 1, &CELLS, &SPANS), Ok(3));
    assert_eq!(lists.labels, [1, 2, 0, 3, HELD]);
    assert_eq!(lists.masks, [0, 0, 0, 0, HELD as u16, HELD as u16]);
    assert_eq!(lists.queue, [0, 0, 0, 0, HELD, HELD, HELD]);
    assert_eq!(lists.tallies, [1, 1, HELD]);
    assert_eq!(lists.pairs, [0, 1, 2, HELD, HELD, HELD, HELD]);
}

#[test]
fn refusals_leave_every_list() {
    let mut lists = Lists::new([4, 4, 4, 2, 3]);
    for (width, height, cells, spans, refused) in [
        (0, 1, &CELLS[..], &SPANS[..], refusal(1, 0)),
        (u64::MAX, u64::MAX, &CELLS, &SPANS, refusal(1, 0)),
        (4, 2, &CELLS, &SPANS, refusal(2, 0)),
        (4, 1, &CELLS, &SPANS[..3], refusal(3, 0)),
        (4, 1, &CELLS, &[1; 4 * 257], refusal(3, 0)),
        (4, 1, &CELLS, &[8, 0, 8, 9], refusal(5, 0)),
        (4, 1, &CELLS, &[8, 0, 8, 8, 3, 3, 3, 3], refusal(6, 1)),
    ] {
        assert_eq!(lists.partition(width, height, cells, spans), Err(refused));
        assert!(lists.as_they_were(), "{refused}");
    }
    for lengths in [[3, 4, 4, 2, 3], [4, 3, 4, 2, 3], [4, 4, 3, 2, 3], [4, 4, 4, 1, 3], [0; 5]] {
        let mut lists = Lists::new(lengths);
        assert_eq!(lists.partition(4, 1, &CELLS, &SPANS), Err(refusal(10, 0)));
        assert!(lists.as_they_were(), "{lengths:?}");
    }
}

#[test]
fn too_few_pair_rows() {
    for length in 0..3 {
        let mut lists = Lists::new([4, 4, 4, 2, length]);
        assert_eq!(lists.partition(4, 1, &CELLS, &SPANS), Err(refusal(12, 0)));
        assert_eq!(lists.labels, [1, 2, 0, 3]);
        assert_eq!(lists.tallies, [1, 1]);
        assert_eq!(lists.pairs, vec![0; length]);
        assert!(lists.masks.iter().all(|mask| *mask == 0) && lists.queue.iter().all(|cell| *cell == 0));
    }
}

// ---- the call that runs a pass: four cells, of which two are a ramp, cut into three regions; pass 1 removes the first boundary

const WIDTH_BITS: u64 = 0x4020_0000_0000_0000;
const RAMP_CELLS: [u8; 4] = [1, 5, 7, 7];
const TWO_SPANS: [u64; 8] = [8, 0, 8, 8, 16, 0, 16, 8];
const TWO_BOUNDARIES: [u64; 18] = [8, 8, 8, 0, WIDTH_BITS, 0, 0, 0, 0, 16, 0, 16, 8, WIDTH_BITS, 1, 7, 0, 1];
const MAP: Map =
    Map { pass: 1, width: 4, height: 1, cells: &RAMP_CELLS, spans: &TWO_SPANS, boundaries: &TWO_BOUNDARIES, anchors: &[] };
/// No record that a map has: cells of all counts, and edges that are no numbers.
const HELD_RECORD: Region = Region {
    cells: usize::MAX,
    min_x: f64::NAN,
    min_y: f64::NEG_INFINITY,
    max_x: -0.0,
    max_y: 1e300,
    ramp_cells: usize::MAX,
    elevations: 0xff,
    elevation_counts: [usize::MAX; 4],
};

struct Call {
    lists: Lists,
    records: Vec<Region>,
    output: Vec<u64>,
}

impl Call {
    fn new(lengths: [usize; 5], records: usize, output: usize) -> Self {
        Self { lists: Lists::new(lengths), records: vec![HELD_RECORD; records], output: vec![HELD.into(); output] }
    }

    fn run(&mut self, map: Map) -> Result<u64, Refusal> {
        let lists = KeptLists { partition: self.lists.lent(), records: &mut self.records, output: &mut self.output };
        kept_boundaries_into(map, lists)
    }

    /// Records bit by bit: an edge that is no number is unlike itself.
    fn records_as_they_were(&self, from: usize) -> bool {
        self.records[from..].iter().all(|record| format!("{record:?}") == format!("{HELD_RECORD:?}"))
    }

    fn as_they_were(&self) -> bool {
        self.lists.as_they_were() && self.records_as_they_were(0) && self.output.iter().all(|entry| *entry == u64::from(HELD))
    }
}

#[test]
fn a_pass_keeps_what_is_beyond() {
    let mut call = Call::new([5, 6, 7, 6, 10], 5, 12);
    assert_eq!(call.run(MAP), Ok(1));
    assert_eq!(call.lists.labels, [1, 2, 3, 3, HELD]);
    assert_eq!(call.lists.masks, [0, 0, 0, 0, HELD as u16, HELD as u16]);
    assert_eq!(call.lists.queue, [0, 0, 0, 0, HELD, HELD, HELD]);
    assert_eq!(call.lists.tallies, [1, 1, 1, 1, HELD, HELD]);
    assert_eq!(call.lists.pairs, [0, 1, 2, 1, 2, 3, HELD, HELD, HELD, HELD]);
    let region = |cells, min_x, max_x, ramp_cells, elevation: usize| {
        let mut elevation_counts = [0; 4];
        elevation_counts[elevation] = cells;
        Region { cells, min_x, min_y: 0.0, max_x, max_y: 8.0, ramp_cells, elevations: 1 << elevation, elevation_counts }
    };
    assert_eq!(
        call.records[..3],
        [region(1, 0.0, 8.0, 0, 0), region(1, 8.0, 16.0, 0, 1), region(2, 16.0, 32.0, 2, 1)]
    );
    assert!(call.records_as_they_were(3));
    assert_eq!(call.output[..5], [1, 16, 0, 16, 8]);
    assert!(call.output[5..].iter().all(|entry| *entry == u64::from(HELD)));
}

#[test]
fn a_pass_refused_leaves_every_list() {
    let mut call = Call::new([4, 4, 4, 4, 6], 3, 10);
    let changed = |place: usize, number: u64| {
        let mut boundaries = TWO_BOUNDARIES;
        boundaries[place] = number;
        boundaries
    };
    let faulty = [
        (changed(2, 33), refusal(7, 0)),
        (changed(13, f64::NAN.to_bits()), refusal(7, 1)),
        (changed(4, 1 << 63), refusal(7, 0)),
        (changed(5, 3), refusal(7, 0)),
        (changed(15, 1 << 32), refusal(7, 1)),
        (changed(17, 8), refusal(7, 1)),
        (changed(8, 1), refusal(7, 0)),
    ];
    for (boundaries, refused) in &faulty {
        assert_eq!(call.run(Map { boundaries, ..MAP }), Err(*refused));
        assert!(call.as_they_were(), "{refused}");
    }
    for (map, refused) in [
        (Map { width: 1025, ..MAP }, refusal(1, 0)),
        (Map { height: 2, ..MAP }, refusal(2, 0)),
        (Map { boundaries: &TWO_BOUNDARIES[1..], ..MAP }, refusal(3, 0)),
        (Map { anchors: &[0; 514], ..MAP }, refusal(3, 0)),
        (Map { pass: 0, ..MAP }, refusal(4, 0)),
        (Map { pass: u64::MAX, spans: &[9; 4], ..MAP }, refusal(4, 0)),
        (Map { spans: &[33, 0, 8, 8], ..MAP }, refusal(5, 0)),
        (Map { spans: &[1, 2, 1, 2], ..MAP }, refusal(6, 0)),
        (Map { anchors: &[0, 0, 4, 0], ..MAP }, refusal(8, 1)),
        (Map { anchors: &[0, u64::MAX], ..MAP }, refusal(8, 0)),
        (Map { cells: &[1, 5, 16, 17], ..MAP }, refusal(9, 3)),
    ] {
        assert_eq!(call.run(map), Err(refused));
        assert!(call.as_they_were(), "{refused}");
    }
    for short in 0..5 {
        let mut lengths = [4, 4, 4, 4, 6];
        lengths[short] -= 1;
        let mut call = Call::new(lengths, 3, if short == 4 { 9 } else { 10 });
        assert_eq!(call.run(MAP), Err(refusal(10, 0)));
        assert!(call.as_they_were(), "{lengths:?}");
    }
}

#[test]
fn too_few_records_or_rows() {
    for (records, pairs, number) in [(2, 6, 11), (0, 0, 11), (3, 5, 12), (4, 0, 12)] {
        let mut call = Call::new([5, 4, 5, 5, pairs], records, 11);
        assert_eq!(call.run(MAP), Err(refusal(number, 0)));
        assert_eq!(call.lists.labels, [1, 2, 3, 3, HELD]);
        assert_eq!((&call.lists.masks[..], &call.lists.queue[..]), (&[0; 4][..], &[0, 0, 0, 0, HELD][..]));
        assert_eq!(call.lists.tallies, if number == 11 { [0, 0, 0, 0, HELD] } else { [1, 1, 1, 1, HELD] });
        assert_eq!(call.lists.pairs, vec![if number == 11 { HELD } else { 0 }; pairs]);
        assert!(call.records_as_they_were(0) && call.output.iter().all(|entry| *entry == u64::from(HELD)));
    }
}

#[test]
fn unequal_counts_keep_all() {
    let mut call = Call::new([4, 4, 4, 4, 6], 3, 10);
    assert_eq!(call.run(Map { boundaries: &[], ..MAP }), Ok(0));
    assert!(call.output.iter().all(|entry| *entry == u64::from(HELD)));
    assert_eq!(call.run(Map { spans: &TWO_SPANS[..4], ..MAP }), Ok(2));
    assert_eq!(call.output, [0, 8, 0, 8, 8, 1, 16, 0, 16, 8]);
    assert_eq!(call.lists.labels, [1, 2, 2, 2]);
}

#[test]
fn lists_without_entries() {
    assert_eq!(partition(0, 0, &[], &[]), Err(refusal(1, 0)));
    assert_eq!(partition(1, 1, &[], &[]), Err(refusal(2, 0)));
    let whole = partition(1, 1, &[1], &[]).expect("one cell");
    assert_eq!((whole.regions, whole.labels), (1, vec![1]));
    assert_eq!(Lists::new([1, 1, 1, 0, 0]).partition(1, 1, &[1], &[]), Ok(1));
    assert_eq!(read_sheet(&[]), Err(refusal(14, 0)));
}

#[test]
fn more_pairs_than_two_a_span() {
    // A comb: every other row is walkable, and one span cuts all of them.
    let cells: Vec<u8> = (0..21).flat_map(|y| [u8::from(y % 2 == 0); 6]).collect();
    let cut = partition(6, 21, &cells, &[[24, 0, 24, 168].into()]).expect("a sound map");
    assert_eq!((cut.regions, cut.pairs.len(), cut.tallies), (22, 11, vec![Tally { removed: 11, separated: 11 }]));
}

#[test]
fn sheets_leave_lists_as_said() {
    const SHEET: [u8; 13] = [1, 3, 2, 1, 1, 5, 1, 8, 0, 8, 8, 0, 0];
    let read = |lengths: [usize; 4], sheet: &[u8]| {
        let mut cells = vec![HELD as u8; lengths[0]];
        let [mut spans, mut boundaries, mut anchors] = [1, 2, 3].map(|list| vec![u64::from(HELD); lengths[list]]);
        let lists = SheetLists { cells: &mut cells, spans: &mut spans, boundaries: &mut boundaries, anchors: &mut anchors };
        let answer = read_sheet_into(sheet, lists).map(|header| (header.pass, header.width, header.height, header.spans));
        (answer, cells, spans, boundaries, anchors)
    };
    let held = u64::from(HELD);
    assert_eq!(
        read([3, 5, 1, 0], &SHEET),
        (Ok((3, 2, 1, 1)), vec![1, 5, HELD as u8], vec![8, 0, 8, 8, held], vec![held], vec![])
    );
    assert_eq!(read([1, 5, 0, 0], &SHEET), (Err(refusal(10, 0)), vec![HELD as u8], vec![held; 5], vec![], vec![]));
    assert_eq!(read([2, 3, 0, 0], &SHEET), (Err(refusal(10, 0)), vec![HELD as u8; 2], vec![held; 3], vec![], vec![]));
    assert_eq!(read([2, 4, 0, 0], &SHEET[..12]), (Err(refusal(14, 12)), vec![HELD as u8; 2], vec![held; 4], vec![], vec![]));
}
