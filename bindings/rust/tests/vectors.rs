//! The stored answers of vectors/, replayed through the safe calls. vectors/README.md has the format.

use jenwyllt::{Refusal, Region, hypot, hypotenuse, kept_boundaries, partition, read_sheet};
use std::fs;
use std::path::Path;

fn stored(name: &str) -> String {
    let path = Path::new(env!("CARGO_MANIFEST_DIR")).join("../../vectors").join(name);
    fs::read_to_string(&path).unwrap_or_else(|error| panic!("{}: {error}", path.display()))
}

/// What stands behind a line's word and count.
fn content<'a>(line: &'a str, word: &str) -> &'a str {
    let behind = line.strip_prefix(word).unwrap_or_else(|| panic!("{word} expected: {line}")).trim_start();
    behind.split_once(' ').map_or("", |(_, content)| content)
}

fn numbers<N: std::str::FromStr>(line: &str, word: &str) -> Vec<N> {
    content(line, word).split_whitespace().map(|number| number.parse().ok().expect("a number")).collect()
}

fn record(numbers: &[u32]) -> Region {
    let [cells, min_x, min_y, max_x, max_y, ramps, mask, counts @ ..] = numbers else { panic!("eleven numbers") };
    let [min_x, min_y, max_x, max_y] = [min_x, min_y, max_x, max_y].map(|edge| f64::from(*edge));
    let elevation_counts = std::array::from_fn(|elevation| counts[elevation] as usize);
    Region { cells: *cells as usize, min_x, min_y, max_x, max_y, ramp_cells: *ramps as usize, elevations: *mask as u8, elevation_counts }
}

/// The numbers of a list of entries.
fn flattened<const COUNT: usize, N, E: Copy + Into<[N; COUNT]>>(list: &[E]) -> Vec<N> {
    list.iter().flat_map(|entry| (*entry).into()).collect()
}

fn sheet(line: &str) -> Vec<u8> {
    let digits = content(line, "sheet");
    (0..digits.len() / 2).map(|i| u8::from_str_radix(&digits[2 * i..2 * i + 2], 16).expect("two digits")).collect()
}

#[test]
fn maps() {
    const RECORD_NUMBERS: usize = 11;
    let text = stored("maps.txt");
    let lines: Vec<_> = text.lines().collect();
    assert!(lines.len() >= 4000);
    for map in lines.chunks(8) {
        let name = map[0];
        let read = read_sheet(&sheet(map[1])).expect(name);
        let kept = kept_boundaries(&read).expect(name);
        let cut = partition(read.width, read.height, &read.cells, &read.spans).expect(name);
        assert_eq!(kept.partition, cut, "{name}");
        assert_eq!(cut.labels, numbers(map[3], "labels"), "{name}");
        assert_eq!(flattened(&cut.tallies), numbers(map[4], "tallies"), "{name}");
        assert_eq!(flattened(&cut.pairs), numbers(map[5], "pairs"), "{name}");
        let records: Vec<_> = numbers(map[6], "records").chunks(RECORD_NUMBERS).map(record).collect();
        assert_eq!(cut.regions as usize, records.len(), "{name}");
        assert_eq!(kept.records, records, "{name}");
        assert_eq!(flattened(&kept.rows), numbers(map[7], "rows"), "{name}");
    }
}

/// `keptlist` prints more refusals than reading gives, and reads less: its own limits on cells and bytes come on top.
#[test]
fn sheets() {
    const KEPTLIST_CELLS: usize = 4096;
    const KEPTLIST_BYTES: usize = 65536;
    let text = stored("sheets.txt");
    let mut lines = text.lines();
    let (mut read, mut refused) = (0, 0);
    while let Some(line) = lines.next() {
        let bytes = sheet(line);
        let count: usize =
            lines.next().and_then(|line| line.strip_prefix("prints ")).and_then(|count| count.parse().ok()).expect(line);
        let printed = lines.by_ref().take(count).collect::<Vec<_>>()[0];
        match read_sheet(&bytes) {
            Ok(sheet) if sheet.cells.len() > KEPTLIST_CELLS => assert_eq!(printed, "refused 1 at 0"),
            _ if bytes.len() > KEPTLIST_BYTES => assert_eq!(printed, "refused 14 at 65536"),
            Ok(_) => {
                read += 1;
                let number = printed.strip_prefix("refused ").map(|rest| rest.split(' ').next().expect("a number"));
                assert!(!matches!(number, Some("14" | "1" | "3")), "{printed}");
            }
            Err(refusal) => {
                refused += 1;
                assert_eq!(format!("refused {} at {}", refusal.number, refusal.place), printed);
                assert!(refusal.to_string().starts_with(&format!("{printed}: ")) && refusal.cause().is_some());
            }
        }
    }
    assert!(read > 100 && refused > 50, "{read} read, {refused} refused");
}

#[test]
fn hypotenuses() {
    let text = stored("hypotenuse.txt");
    assert!(text.lines().count() >= 20_000);
    for line in text.lines() {
        let [x, y, number, root] = line.split(' ').collect::<Vec<_>>()[..] else { panic!("four words: {line}") };
        let [x, y, root] = [x, y, root].map(|bits| f64::from_bits(u64::from_str_radix(bits, 16).expect("16 digits")));
        let expected = match number {
            "0" => Ok(root.to_bits()),
            _ => Err(Refusal { number: number.parse().expect("a number"), place: 0 }),
        };
        assert_eq!(hypotenuse(x, y).map(f64::to_bits), expected, "{line}");
        assert_eq!(hypot(x, y).to_bits(), root.to_bits(), "{line}");
    }
}
