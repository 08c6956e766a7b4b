//! The program on sheets: case J, the proved cases of document 01 that a sheet can hold, every refusal and the order of checks.

use oracle::sheet::{Map, Refusal, put, write};
use oracle::table::{check_partition, check_pass};
use std::io::Write;
use std::process::{Command, Stdio};

fn oracle(arguments: &[&str], input: &[u8]) -> String {
    let mut child = Command::new(env!("CARGO_BIN_EXE_oracle"))
        .args(arguments)
        .stdin(Stdio::piped())
        .stdout(Stdio::piped())
        .spawn()
        .expect("the program starts");
    let mut stdin = child.stdin.take().expect("a pipe");
    let input = input.to_vec();
    let writer = std::thread::spawn(move || stdin.write_all(&input));
    let output = child.wait_with_output().expect("the program ends");
    writer.join().expect("the writer ends").expect("all input is read");
    assert!(output.status.success());
    String::from_utf8(output.stdout).expect("plain text")
}

fn kept(map: &Map) -> String {
    oracle(&["kept"], &write(map))
}

fn full(map: &Map, options: &[&str]) -> String {
    oracle(&[&["full"], options].concat(), &write(map))
}

fn refused(number: u64, place: u64) -> String {
    format!("refused {number} at {place}\n")
}

const EIGHT: u64 = 0x4020_0000_0000_0000;

/// Boundaries with the endpoints of the spans, widths 8.0, and the given kind, ramp id and elevations.
fn with_boundaries(spans: &[[u64; 4]], tails: &[[u64; 4]]) -> (Vec<u64>, Vec<u64>) {
    let boundaries = spans.iter().zip(tails).flat_map(|(span, tail)| [span.as_slice(), &[EIGHT], tail].concat()).collect();
    (spans.concat(), boundaries)
}

fn case_j() -> Map {
    let spans = [[16, 8, 16, 16], [8, 8, 8, 16], [8, 8, 16, 8], [24, 8, 24, 16], [16, 16, 24, 16]];
    let (spans, boundaries) = with_boundaries(&spans, &[[0; 4]; 5]);
    Map { pass: 3, width: 4, height: 3, cells: vec![0, 1, 0, 0, 1, 1, 1, 1, 0, 0, 1, 0], spans, boundaries, anchors: vec![] }
}

/// Walkable cells in a row, all of elevation 0, cut between each two.
fn row_of_cells(pass: u64, cells: &[u8], tails: &[[u64; 4]]) -> Map {
    let spans: Vec<_> = (1..cells.len() as u64).map(|x| [8 * x, 0, 8 * x, 8]).collect();
    let (spans, boundaries) = with_boundaries(&spans, tails);
    Map { pass, width: cells.len() as u64, height: 1, cells: cells.to_vec(), spans, boundaries, anchors: vec![] }
}

#[test]
fn case_j_as_printed() {
    let text = "kept 4 of 5\n1 8 8 8 16\n2 8 8 16 8\n4 16 16 24 16\n3 24 8 24 16\n";
    assert_eq!(kept(&case_j()), text);
    let sheet = write(&case_j());
    let framed = [&(sheet.len() as u64).to_le_bytes(), sheet.as_slice()].concat();
    assert_eq!(oracle(&["kept", "--many"], &framed.repeat(3)), text.repeat(3));
    assert_eq!(oracle(&["kept", "--many"], &[]), "");
}

#[test]
fn full_lines() {
    let records: Vec<_> = [(1, 0), (0, 1), (1, 1), (2, 1), (3, 1), (2, 2)]
        .map(|(x, y)| [x, y, x + 1, y + 1].map(|edge| (f64::from(edge) * 8.0).to_bits()))
        .map(|[a, b, c, d]| format!("[1,{a},{b},{c},{d},0,1,1,0,0,0]"))
        .into();
    let labels = "\"labels\":[0,1,0,0,2,3,4,5,0,0,6,0]";
    let tallies = "\"tallies\":[[1,1],[1,1],[1,1],[1,1],[1,1]]";
    let pairs = "\"pairs\":[[0,3,4],[1,2,3],[2,1,3],[3,4,5],[4,4,6]]";
    let rows = "\"rows\":[[1,8,8,8,16],[2,8,8,16,8],[4,16,16,24,16],[3,24,8,24,16]]";
    let done = format!(
        "{{\"number\":0,\"value\":4,{labels},\"regions\":6,{tallies},{pairs},\"records\":[{}],{rows}}}\n",
        records.join(",")
    );
    assert_eq!(full(&case_j(), &[]), done);
    assert_eq!(full(&case_j(), &["--records", "6", "--pairs", "5"]), done);
    assert_eq!(
        full(&case_j(), &["--records", "5", "--pairs", "4"]),
        format!("{{\"number\":11,\"value\":0,{labels},\"regions\":6}}\n")
    );
    assert_eq!(full(&case_j(), &["--pairs", "4"]), format!("{{\"number\":12,\"value\":0,{labels},\"regions\":6,{tallies}}}\n"));
    assert_eq!(full(&case_j(), &["--cells", "11"]), "{\"number\":1,\"value\":0}\n");
    let sheet = write(&case_j());
    assert_eq!(oracle(&["partition"], &sheet), format!("{{\"number\":0,\"value\":6,{labels},{tallies},{pairs}}}\n"));
    assert_eq!(oracle(&["partition", "--pairs", "4"], &sheet), format!("{{\"number\":12,\"value\":0,{labels},{tallies}}}\n"));
    let read = oracle(&["read"], &sheet);
    assert!(read.starts_with("{\"number\":0,\"value\":0,\"pass\":3,\"width\":4,\"height\":3,\"cells\":[0,1,0,0,1,"), "{read}");
    assert!(read.ends_with(",\"anchors\":[]}\n"), "{read}");
}

#[test]
fn proved_cases() {
    let lower = [1, 0, 0, 0];
    assert_eq!(kept(&row_of_cells(1, &[1; 3], &[[0; 4], lower])), "kept 1 of 2\n1 16 0 16 8\n");
    for ramps in [[1, 3, 1, 1], [1, 1, 3, 1]] {
        let interior = row_of_cells(2, &ramps, &[[1, 7, 0, 1], [0; 4], [2, 7, 0, 1]]);
        assert_eq!(kept(&interior), "kept 2 of 3\n0 8 0 8 8\n2 24 0 24 8\n");
    }
}

#[test]
fn unequal_counts_keep_all() {
    let mut map = case_j();
    map.spans.truncate(16);
    assert!(kept(&map).starts_with("kept 5 of 5\n1 "));
    map.boundaries.clear();
    assert_eq!(kept(&map), "kept 0 of 0\n");
}

#[test]
fn refusals_of_the_table() {
    let j = case_j();
    let changed = |change: fn(&mut Map)| {
        let mut map = j.clone();
        change(&mut map);
        kept(&map)
    };
    assert_eq!(changed(|map| map.width = 0), refused(1, 0));
    assert_eq!(changed(|map| map.height = 1_025), refused(1, 0));
    assert_eq!(changed(|map| map.spans = vec![8; 4 * 257]), refused(3, 0));
    assert_eq!(changed(|map| map.boundaries = vec![8; 9 * 257]), refused(3, 0));
    assert_eq!(changed(|map| map.anchors = vec![8; 2 * 257]), refused(3, 0));
    for pass in [0, 4, u64::MAX] {
        assert_eq!(kept(&Map { pass, ..j.clone() }), refused(4, 0));
    }
    assert_eq!(changed(|map| map.spans[6] = 33), refused(5, 1));
    assert_eq!(changed(|map| map.spans[19] = 25), refused(5, 4));
    assert_eq!(changed(|map| map.spans[0] = u64::MAX), refused(5, 0));
    assert_eq!(changed(|map| map.spans[8..12].fill(8)), refused(6, 2));
    for (entry, unfit) in [
        (0, 33),
        (1, 25),
        (2, 1 << 32),
        (3, u64::MAX),
        (4, f64::INFINITY.to_bits()),
        (4, f64::NAN.to_bits()),
        (4, (-0.0_f64).to_bits()),
        (4, 65_536.0_f64.next_up().to_bits()),
        (5, 3),
        (6, 1),
        (7, 1),
        (8, 1),
    ] {
        let mut map = j.clone();
        map.boundaries[9 * 3 + entry] = unfit;
        assert_eq!(kept(&map), refused(7, 3), "{entry}");
        assert!(oracle(&["partition"], &write(&map)).starts_with("{\"number\":0,\"value\":6,"));
    }
    for (entry, fit, unfit) in [(6, (1 << 32) - 1, 1 << 32), (7, 7, 8), (8, 7, 8), (4, 65_536.0_f64.to_bits(), 1 << 63)] {
        let mut map = j.clone();
        map.boundaries[9 * 3 + 5] = 2;
        map.boundaries[9 * 3 + entry] = fit;
        assert!(kept(&map).starts_with("kept "), "{entry}");
        map.boundaries[9 * 3 + entry] = unfit;
        assert_eq!(kept(&map), refused(7, 3), "{entry}");
    }
    assert_eq!(changed(|map| map.anchors = vec![3, 2, 4, 0]), refused(8, 1));
    assert_eq!(changed(|map| map.anchors = vec![0, 3]), refused(8, 0));
    assert_eq!(changed(|map| map.cells[5] = 1 + 4 * 4), refused(9, 5));
    assert!(changed(|map| map.cells[5] = 1 + 4 * 3).starts_with("kept "));
    assert!(changed(|map| map.cells[0] = 254).starts_with("kept "));
    // A boundary may have equal endpoints.
    assert!(changed(|map| map.boundaries[..4].fill(8)).starts_with("kept "));
}

/// What a sheet cannot say: cells that do not fill the map, and a last entry unfinished.
#[test]
fn refusals_of_lent_lists() {
    let at_once = |map: &Map| (check_pass(map).unwrap_err(), check_partition(map));
    let cells = Map { cells: vec![1; 11], ..case_j() };
    assert_eq!(at_once(&cells), (Refusal::new(2, 0), Err(Refusal::new(2, 0))));
    let spans = Map { spans: vec![8; 5], ..case_j() };
    assert_eq!(at_once(&spans), (Refusal::new(3, 0), Err(Refusal::new(3, 0))));
    assert_eq!(at_once(&Map { boundaries: vec![8; 8], ..case_j() }), (Refusal::new(3, 0), Ok(())));
    assert_eq!(at_once(&Map { anchors: vec![1], ..case_j() }), (Refusal::new(3, 0), Ok(())));
}

#[test]
fn limits_of_keptlist() {
    let empty = |width: u64, height: u64| Map {
        pass: 1,
        width,
        height,
        cells: vec![0; (width * height) as usize],
        spans: vec![],
        boundaries: vec![],
        anchors: vec![],
    };
    assert_eq!(kept(&empty(64, 64)), "kept 0 of 0\n");
    assert_eq!(kept(&empty(241, 17)), refused(1, 0));
    assert_eq!(kept(&empty(1_024, 4)), "kept 0 of 0\n");
    // Once both sides are read: what follows no longer counts.
    assert_eq!(oracle(&["kept"], &[1, 9, 65, 64]), refused(1, 0));
    assert!(oracle(&["full"], &write(&empty(1_024, 1_024))).starts_with("{\"number\":0,\"value\":0,"));

    // Cells that touch nowhere: 512 regions are the most.
    for (regions, answer) in [(512, "kept 0 of 0\n".into()), (513, refused(11, 0))] {
        let mut map = empty(64, 64);
        (0..regions).for_each(|region| map.cells[region / 32 * 128 + region % 32 * 2] = 1);
        assert_eq!(kept(&map), answer);
    }
    // Equal spans that each part the same pairs of cells: 256 times 8 rows are the most.
    for (pairs, answer) in [(8, "kept 0 of 0\n".into()), (9, refused(12, 0))] {
        let mut map = empty(2, 2 * pairs);
        map.spans = [8, 0, 8, 16 * pairs].repeat(256);
        (0..pairs as usize).for_each(|pair| map.cells[4 * pair..][..2].fill(1));
        assert_eq!(kept(&map), answer);
    }
}

#[test]
fn ill_formed_sheets() {
    let sheet = write(&case_j());
    let length = sheet.len() as u64;
    assert_eq!(oracle(&["kept"], &[]), refused(14, 0));
    for cut in 0..sheet.len() {
        assert_eq!(oracle(&["kept"], &sheet[..cut]), refused(14, cut as u64), "{cut}");
    }
    assert_eq!(oracle(&["kept"], &[&sheet[..], &[0]].concat()), refused(14, length));
    assert_eq!(oracle(&["kept"], &[&[2], &sheet[1..]].concat()), refused(14, 0));
    // The cell at offset 4 + 5, over 255.
    assert_eq!(oracle(&["kept"], &[&sheet[..9], &[0x80, 2], &sheet[10..]].concat()), refused(14, 9));
    // The pass in ten groups and in too many.
    let pass = |groups: &[u8]| oracle(&["kept"], &[&[1], groups, &sheet[2..]].concat());
    let (nine, ten) = ([0x80; 8], [0x80; 9]);
    assert_eq!(pass(&[&[0x83], &nine[..], &[1]].concat()), refused(4, 0));
    assert_eq!(pass(&[&[0x83], &nine[..], &[2]].concat()), refused(14, 1));
    assert_eq!(pass(&[&[0x83], &ten[..], &[0]].concat()), refused(14, 1));
    // Nine continued bytes at the end are an early end; a tenth above 1 is too long even where nothing follows.
    assert_eq!(oracle(&["kept"], &[&[1, 0x83], &nine[..]].concat()), refused(14, 10));
    assert_eq!(oracle(&["kept"], &[&[1, 0x83], &nine[..], &[0x80]].concat()), refused(14, 1));
    // An unfinished kind or cell is an early end.
    assert_eq!(oracle(&["kept"], &[0x82]), refused(14, 1));
    assert_eq!(oracle(&["kept"], &[&sheet[..9], &[0xff, 0xff]].concat()), refused(14, 11));

    let behind = |length: usize| [vec![0; length - sheet.len()], sheet.clone()].concat();
    assert_eq!(oracle(&["kept"], &behind(65_536)), refused(14, 0));
    assert_eq!(oracle(&["kept"], &behind(65_537)), refused(14, 65_536));
    assert_eq!(oracle(&["full"], &behind(65_537)), "{\"number\":14,\"value\":0}\n");
}

/// The number at a byte with so many groups of zero at its end.
fn padded(sheet: &[u8], last: usize, groups: usize) -> Vec<u8> {
    [&sheet[..last], &[sheet[last] | 0x80], &vec![0x80; groups - 1][..], &[0], &sheet[last + 1..]].concat()
}

#[test]
fn padded_numbers() {
    let sheet = write(&case_j());
    // Every number, with one group of zero at its end up to as many as make ten groups: refused at its first byte.
    let mut first = 0;
    for last in 0..sheet.len() {
        if sheet[last] >= 0x80 {
            continue;
        }
        for groups in 1..=9 - (last - first) {
            let data = padded(&sheet, last, groups);
            assert_eq!(oracle(&["kept"], &data), refused(14, first as u64), "{last} {groups}");
            // Without its last byte the number is an early end, of which nothing else is said.
            let end = last + groups;
            assert_eq!(oracle(&["kept"], &data[..end]), refused(14, end as u64), "{last} {groups}");
        }
        first = last + 1;
    }
    // Zero in two bytes; a group of zero inside 16,384, which is no pass.
    assert_eq!(oracle(&["kept"], &[1, 0x80, 0]), refused(14, 1));
    assert_eq!(oracle(&["kept"], &[&[1, 0x80, 0x80, 1], &sheet[2..]].concat()), refused(4, 0));
    // A padded side or count is not judged; a width of 0 waits for the height.
    assert_eq!(oracle(&["kept"], &[1, 3, 0x80, 0, 1]), refused(14, 2));
    assert_eq!(oracle(&["kept"], &[1, 3, 0, 0x81, 0]), refused(14, 3));
    assert_eq!(oracle(&["kept"], &[1, 3, 1, 1, 1, 0x81, 0x82, 0]), refused(14, 5));
}

/// Two faults at once: the smaller number comes, but reading comes before all checks.
#[test]
fn order_of_checks() {
    type Fault = (u64, u64, fn(&mut Map));
    let faults: [Fault; 7] = [
        (3, 0, |map| map.anchors = vec![0; 2 * 257]),
        (4, 0, |map| map.pass = 5),
        (5, 1, |map| map.spans[4] = 99),
        (6, 3, |map| map.spans[12..16].fill(8)),
        (7, 2, |map| map.boundaries[9 * 2 + 5] = 9),
        (8, 0, |map| map.anchors.splice(0..0, [9, 9]).for_each(drop)),
        (9, 1, |map| map.cells[1] = 17),
    ];
    for (index, (number, place, first)) in faults.iter().enumerate() {
        for (_, _, second) in &faults[index + 1..] {
            let mut map = case_j();
            second(&mut map);
            first(&mut map);
            assert_eq!(kept(&map), refused(*number, *place));
            assert_eq!(full(&map, &["--records", "1", "--pairs", "1"]), format!("{{\"number\":{number},\"value\":{place}}}\n"));
        }
    }
    // 5 and 6 are tested span by span.
    let mut map = case_j();
    map.spans[0..4].fill(8);
    map.spans[4] = 99;
    assert_eq!(kept(&map), refused(6, 0));
    map.spans[0..4].fill(99);
    assert_eq!(kept(&map), refused(5, 0));
    // Trailing bytes come before check 4, but a count over 256 ends the reading.
    let mut sheet = write(&Map { pass: 0, ..case_j() });
    sheet.push(0);
    assert_eq!(oracle(&["kept"], &sheet), refused(14, sheet.len() as u64 - 1));
    let mut sheet = write(&Map { pass: 0, spans: vec![], boundaries: vec![], ..case_j() });
    sheet.truncate(16);
    put(&mut sheet, 257);
    assert_eq!(oracle(&["kept"], &sheet), refused(3, 0));
}

#[test]
fn hypotenuse_by_bits() {
    let input = "4008000000000000 4010000000000000\n0 8000000000000000\n3ff0000000000000 3FF0000000000000\n7ff0000000000000 0\n40e0000000000000 40e0000000000001\n";
    let output = "4014000000000000\n0000000000000000\n3ff6a09e667f3bcd\nrefused 13\nrefused 13\n";
    assert_eq!(oracle(&["hypot"], input.as_bytes()), output);
}

#[test]
fn wrong_command_lines() {
    for arguments in [&[] as &[&str], &["keep"], &["kept", "--cells"], &["kept", "--cells", "x"], &["hypot", "--many"]] {
        let status =
            Command::new(env!("CARGO_BIN_EXE_oracle")).args(arguments).stdin(Stdio::null()).stderr(Stdio::null()).status();
        assert_eq!(status.expect("the program starts").code(), Some(2), "{arguments:?}");
    }
}
