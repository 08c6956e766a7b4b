//! Replays the stored graphs of vectors/game.txt and the stored maps of vectors/game_maps.txt.

use std::collections::{BTreeSet, HashMap};
use std::fmt::Debug;
use std::fs;
use std::path::Path;

use jenwyllt::{
    KeptLists, Map, PartitionLists, Played, Refusal, Region, Winner, read_sheet, runner_and_guard, runner_and_guard_into,
    solve_game_into,
};

const BEFORE: u32 = 60_000;

#[test]
fn stored_graphs() {
    let path = Path::new(env!("CARGO_MANIFEST_DIR")).join("../../vectors/game.txt");
    let text = fs::read_to_string(path).expect("vectors/game.txt");
    let (mut accepted, mut refused) = (0, 0);
    for line in text.lines() {
        let numbers: Vec<u64> = line.split(' ').map(|word| word.parse().expect("a number")).collect();
        let (regions, goal) = (numbers[0], numbers[1]);
        let (pairs, rest) = numbers[3..].split_at(numbers[2] as usize);
        let pairs: Vec<u32> = pairs.iter().map(|&n| n as u32).collect();
        let expected: Vec<u32> = rest[3..].iter().map(|&n| n as u32).collect();
        let mut verdicts = vec![BEFORE; rest[0] as usize];
        match solve_game_into(regions, &pairs, goal, &mut verdicts) {
            Ok(count) => {
                assert_eq!((0, count), (rest[1], rest[2]), "{line}");
                accepted += 1;
            }
            Err(Refusal { number, place, .. }) => {
                assert_eq!((number, place), (rest[1], rest[2]), "{line}");
                refused += 1;
            }
        }
        let (front, behind) = verdicts.split_at(expected.len());
        assert_eq!(front, expected, "{line}");
        assert!(behind.iter().all(|&n| n == BEFORE), "{line}");
    }
    assert!(accepted > 90 && refused > 10);
}

/// The words of a stored map's lines, by the first.
fn lines_of(text: &str) -> HashMap<&str, Vec<&str>> {
    let words = text.lines().skip(1).map(|line| line.split(' ').collect::<Vec<_>>());
    words.map(|words| (words[0], words[1..].to_vec())).collect()
}

fn numbers_of(words: &[&str]) -> Vec<u64> {
    words.iter().map(|word| word.parse().expect("a number")).collect()
}

fn bytes_of(digits: &str) -> Vec<u8> {
    (0..digits.len() / 2).map(|i| u8::from_str_radix(&digits[2 * i..2 * i + 2], 16).expect("two digits")).collect()
}

fn record_numbers(record: &Region) -> Vec<u64> {
    let Region { cells, min_x, min_y, max_x, max_y, ramp_cells, elevations, elevation_counts } = *record;
    let edges = [min_x, min_y, max_x, max_y].map(|edge| edge as u64);
    [&[cells as u64][..], &edges, &[ramp_cells as u64, u64::from(elevations)], &elevation_counts.map(|count| count as u64)]
        .concat()
}

/// A list is the stored numbers, and behind them as it was.
fn check<N: Copy + Into<u64> + Debug>(list: &[N], stored: &[u64], name: &str) {
    let left: Vec<u64> = list.iter().map(|&number| number.into()).collect();
    assert_eq!(left[..stored.len()], *stored, "{name}");
    assert!(left[stored.len()..].iter().all(|&number| number == u64::from(BEFORE)), "{name}: {left:?}");
}

/// The call that makes its own lists answers the same.
fn check_own(sheet: &jenwyllt::Sheet, goal: u64, answer: &[u64], stored: impl Fn(&str) -> Vec<u64>, name: &str) {
    let kept = match runner_and_guard(sheet, goal) {
        Ok(kept) => kept,
        Err(refusal) => return assert_eq!((refusal.number, refusal.place), (answer[0], answer[1]), "{name}"),
    };
    let regions = kept.game.regions();
    assert_eq!([0, kept.rows.len() as u64, regions as u64], *answer, "{name}");
    assert_eq!(kept.partition.labels.iter().map(|&label| label.into()).collect::<Vec<u64>>(), stored("labels"), "{name}");
    assert_eq!((kept.partition.tallies.len(), kept.records.len()), (kept.rows.len(), regions), "{name}");
    let verdicts = stored("verdicts");
    for runner in 1..=regions {
        for guard in 1..=regions {
            for turn in 0..2 {
                let at = 3 * (2 * ((runner - 1) * regions + guard - 1) + turn);
                let verdict = kept.game.at(runner, guard, turn == 0);
                let winner = if verdict.winner == Winner::Runner { 1 } else { 2 };
                assert_eq!([winner, verdict.moves.into(), verdict.region.unwrap_or(0).into()], verdicts[at..at + 3], "{name}");
            }
        }
    }
}

#[test]
fn stored_maps() {
    let path = Path::new(env!("CARGO_MANIFEST_DIR")).join("../../vectors/game_maps.txt");
    let text = fs::read_to_string(path).expect("vectors/game_maps.txt");
    let (mut numbers, mut accepted) = (BTreeSet::new(), 0);
    for text in text.strip_prefix("map ").expect("a map").split("\nmap ") {
        let name = text.lines().next().expect("a name");
        let lines = lines_of(text);
        let stored = |word: &str| lines.get(word).map(|words| numbers_of(&words[1..])).unwrap_or_default();
        let [goal, room, answer] = ["goal", "room", "answer"].map(|word| numbers_of(&lines[word]));
        let sheet = read_sheet(&bytes_of(lines["sheet"][1])).expect(name);
        let long = |list: usize| room[list] as usize;
        let (mut labels, mut masks, mut queue) = (vec![BEFORE; long(0)], vec![BEFORE as u16; long(1)], vec![BEFORE; long(2)]);
        let (mut tallies, mut pairs) = (vec![BEFORE; long(3)], vec![BEFORE; long(4)]);
        let mut records = vec![Region { cells: 9, ..Region::default() }; long(5)];
        let (mut output, mut verdicts) = (vec![u64::from(BEFORE); long(6)], vec![BEFORE; long(7)]);
        let lists = KeptLists {
            partition: PartitionLists {
                labels: &mut labels,
                masks: &mut masks,
                queue: &mut queue,
                tallies: &mut tallies,
                pairs: &mut pairs,
            },
            records: &mut records,
            output: &mut output,
        };
        match runner_and_guard_into(Map::from(&sheet), goal[0], lists, &mut verdicts) {
            Ok(Played { kept, regions }) => assert_eq!([0, kept, regions], answer[..], "{name}"),
            Err(Refusal { number, place, .. }) => assert_eq!([number, place, 0], answer[..], "{name}"),
        }
        for (list, word) in
            [(&labels, "labels"), (&queue, "queue"), (&tallies, "tallies"), (&pairs, "pairs"), (&verdicts, "verdicts")]
        {
            check(list, &stored(word), name);
        }
        check(&masks, &stored("masks"), name);
        check(&output, &stored("output"), name);
        let changed = stored("records");
        let (front, behind) = records.split_at(changed.len() / 11);
        assert_eq!(front.iter().flat_map(record_numbers).collect::<Vec<_>>(), changed, "{name}");
        assert!(behind.iter().all(|record| *record == Region { cells: 9, ..Region::default() }), "{name}");
        if !(10..=12).contains(&answer[0]) {
            check_own(&sheet, goal[0], &answer, stored, name);
        }
        numbers.insert(answer[0]);
        accepted += usize::from(answer[0] == 0);
    }
    assert!(accepted > 80, "{accepted} accepted");
    assert_eq!(numbers.into_iter().collect::<Vec<_>>(), [0, 4, 5, 6, 7, 8, 9, 10, 11, 12, 16, 23, 24]);
}
