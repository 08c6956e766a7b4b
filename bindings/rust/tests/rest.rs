//! Stored runs to rest, made by the Rust called by turns, replayed through the safe calls. vectors/README.md has the format.

use jenwyllt::{KeptLists, Map, PartitionLists, Refusal, Region, RestCounts, read_sheet, run_to_rest, run_to_rest_into};
use std::fs;
use std::path::Path;

const FILLED: u8 = 9;

/// The lines of a run by their first word.
struct Run<'a> {
    text: &'a str,
}

impl Run<'_> {
    fn words(&self, word: &str) -> Option<Vec<&str>> {
        self.text.lines().map(|line| line.split(' ').collect::<Vec<_>>()).find(|words| words[0] == word).map(|words| words[1..].to_vec())
    }

    fn numbers(&self, word: &str) -> Vec<u64> {
        self.words(word).expect(word).iter().map(|number| number.parse().expect("a number")).collect()
    }

    /// Behind the count.
    fn list(&self, word: &str) -> Vec<u64> {
        self.numbers(word).split_off(1)
    }

    fn sheet(&self) -> Vec<u8> {
        let digits = self.words("sheet").expect("a sheet")[1];
        (0..digits.len() / 2).map(|i| u8::from_str_radix(&digits[2 * i..2 * i + 2], 16).expect("two digits")).collect()
    }
}

fn record_numbers(record: &Region) -> Vec<u64> {
    let Region { cells, min_x, min_y, max_x, max_y, ramp_cells, elevations, elevation_counts } = *record;
    let edges = [min_x, min_y, max_x, max_y].map(|edge| edge as u64);
    let counts = elevation_counts.map(|count| count as u64);
    [&[cells as u64][..], &edges, &[ramp_cells as u64, u64::from(elevations)], &counts].concat()
}

/// The front of a list, and that it stays as it was behind the second place. Between them what only the first pass filled is zero.
fn front<N: Copy + Into<u64> + PartialEq + std::fmt::Debug>(list: &[N], long: usize, name: &str) -> Vec<u64> {
    let behind = &list[long..];
    let zeros = behind.iter().take_while(|entry| (**entry).into() == 0).count();
    assert!(behind[zeros..].iter().all(|entry| (*entry).into() == u64::from(FILLED)), "{name}: {behind:?}");
    list[..long].iter().map(|entry| (*entry).into()).collect()
}

#[test]
fn stored_runs() {
    let path = Path::new(env!("CARGO_MANIFEST_DIR")).join("../../vectors/rest.txt");
    let text = fs::read_to_string(&path).unwrap_or_else(|error| panic!("{}: {error}", path.display()));
    let (mut accepted, mut longer) = (0, 0);
    for text in text.strip_prefix("run ").expect("a run").split("\nrun ") {
        let name = text.lines().next().expect("a name");
        let run = Run { text };
        let sheet = read_sheet(&run.sheet()).expect(name);
        let (cells, spans, boundaries) = (sheet.cells.len(), sheet.spans.len(), sheet.boundaries.len());
        let (room, answer) = (run.numbers("room"), run.numbers("answer"));
        // Longer than needed and full of nines, but for records and pair rows, whose room is stored.
        let (mut labels, mut masks, mut queue) = (vec![9u32; cells + 1], vec![9u16; cells + 1], vec![9u32; cells + 1]);
        let (mut tallies, mut pairs) = (vec![9u32; 2 * spans + 1], vec![9u32; 3 * room[1] as usize]);
        let mut records = vec![Region { cells: 9, ..Region::default() }; room[0] as usize];
        let mut output = vec![9u64; 5 * boundaries + 1];
        let lists = KeptLists {
            partition: PartitionLists { labels: &mut labels, masks: &mut masks, queue: &mut queue, tallies: &mut tallies, pairs: &mut pairs },
            records: &mut records,
            output: &mut output,
        };
        let counts = run_to_rest_into(Map::from(&sheet), lists);
        if answer[0] != 0 {
            assert_eq!(counts, Err(Refusal { number: answer[0], place: answer[1] }), "{name}");
            assert!(output.iter().all(|number| *number == 9) && records.iter().all(|record| record.cells == 9), "{name}");
            continue;
        }
        let kept = answer[1] as usize;
        assert_eq!(counts, Ok(RestCounts { kept: answer[1], rounds: answer[2] }), "{name}");
        assert_eq!(front(&labels[..cells], cells, name), run.list("labels"), "{name}");
        assert!(masks[..cells].iter().all(|mask| *mask == 0) && queue[..cells].iter().all(|entry| *entry == 0), "{name}");
        assert_eq!((labels[cells], masks[cells], queue[cells]), (9, 9, 9), "{name}");
        assert_eq!(front(&tallies, 2 * kept, name), run.list("tallies"), "{name}");
        let rows = run.list("pairs");
        assert_eq!(front(&pairs, rows.len(), name), rows, "{name}");
        let regions = run.numbers("records")[0] as usize;
        assert_eq!(records[..regions].iter().flat_map(record_numbers).collect::<Vec<_>>(), run.list("records"), "{name}");
        assert!(records[regions..].iter().all(|record| *record == Region::default()), "{name}: the first pass filled all records");
        assert_eq!(output[..5 * kept], run.list("rows"), "{name}");
        assert!(output[5 * kept..].iter().all(|number| *number == 9), "{name}");
        let rested = run_to_rest(&sheet).expect(name);
        assert_eq!((rested.rows.len(), rested.rounds, rested.partition.tallies.len()), (kept, answer[2], kept), "{name}");
        accepted += 1;
        longer += usize::from(answer[2] > 1);
    }
    assert!(accepted > 250 && longer >= 200, "{accepted} accepted, {longer} of two rounds or more");
}
