//! Stored results, good and damaged, replayed: answer, place and every entry of the lent lists; and what the runs of stored maps found, stored and
//! read again. vectors/README.md has the formats.

use jenwyllt::{
    Refusal, ResultHeader, ResultLists, RunResult, kept_boundaries, read_result, read_result_into, read_sheet, write_result,
    write_result_into,
};
use std::fs;
use std::path::Path;

const HELD: u64 = 0xa5a5_a5a5_a5a5_a5a5;

fn vectors(name: &str) -> String {
    fs::read_to_string(Path::new(env!("CARGO_MANIFEST_DIR")).join("../../vectors").join(name)).expect(name)
}

fn numbers(part: &str) -> Vec<u64> {
    part.split_whitespace().map(|number| number.parse().expect("a number")).collect()
}

fn bytes(hex: &str) -> Vec<u8> {
    (0..hex.len()).step_by(2).map(|k| u8::from_str_radix(&hex[k..k + 2], 16).expect("a byte")).collect()
}

/// The parts of each stored case of this kind, without its word.
fn cases<'a>(text: &'a str, kind: &'a str) -> impl Iterator<Item = Vec<&'a str>> {
    text.lines().filter_map(move |line| Some(line.strip_prefix(kind)?.strip_prefix(' ')?.split(';').collect()))
}

fn told<T>(answer: &[u64], value: T) -> Result<T, Refusal> {
    if answer[0] == 0 { Ok(value) } else { Err(Refusal { number: answer[0], place: answer[1] }) }
}

#[test]
fn read() {
    let text = vectors("results.txt");
    let mut count = 0;
    for case in cases(&text, "read") {
        let (sheet, rooms, answer) = (bytes(case[0]), numbers(case[1]), numbers(case[2]));
        let part = |k: usize| numbers(case.get(k).unwrap_or(&""));
        let found: [Vec<u64>; 4] = std::array::from_fn(|k| part(4 + k));
        let mut lists: [Vec<u64>; 4] = std::array::from_fn(|k| vec![HELD; rooms[k] as usize]);
        let [labels, tallies, pairs, rows] = &mut lists;
        let said = read_result_into(&sheet, ResultLists { labels, tallies, pairs, rows });
        let [labels, spans, pairs, rows] = [(0, 1), (1, 2), (2, 3), (3, 5)].map(|(k, size)| (found[k].len() / size) as u64);
        let regions = part(3).first().copied().unwrap_or(0);
        assert_eq!(said, told(&answer, ResultHeader { regions, labels, spans, pairs, rows }), "{case:?}");
        for (list, numbers) in lists.iter().zip(&found) {
            assert_eq!(list[..numbers.len()], numbers[..], "{case:?}");
            assert!(list[numbers.len()..].iter().all(|entry| *entry == HELD), "{case:?}");
        }
        if answer[0] != 10 {
            let [labels, tallies, pairs, rows] = found;
            assert_eq!(read_result(&sheet), told(&answer, RunResult { regions, labels, tallies, pairs, rows }), "{case:?}");
        }
        count += 1;
    }
    assert!(count > 1_500);
}

#[test]
fn written() {
    let text = vectors("results.txt");
    let mut count = 0;
    for case in cases(&text, "write") {
        let [regions, labels, tallies, pairs, rows, room, answer] = std::array::from_fn(|k| numbers(case[k]));
        let sheet = bytes(case.get(7).unwrap_or(&""));
        let before = vec![HELD as u8; room[0] as usize];
        let mut out = before.clone();
        let said = write_result_into(regions[0], &labels, &tallies, &pairs, &rows, &mut out);
        assert_eq!(said, told(&answer, answer[1]), "{case:?}");
        assert_eq!(out, [&sheet[..], &before[sheet.len()..]].concat(), "{case:?}");
        count += 1;
    }
    assert!(count > 200);
}

#[test]
fn runs() {
    let text = vectors("maps.txt");
    let lines: Vec<&str> = text.lines().collect();
    for map in lines.chunks(8) {
        let sheet = read_sheet(&bytes(map[1].split(' ').nth(2).expect("a sheet"))).expect(map[0]);
        let found = RunResult::from(&kept_boundaries(&sheet).expect(map[0]));
        // Behind a word and a count.
        let [labels, tallies, pairs, rows] = [3, 4, 5, 7].map(|k: usize| numbers(map[k].splitn(3, ' ').nth(2).unwrap_or("")));
        let regions = labels.iter().copied().max().unwrap_or(0);
        assert_eq!(found, RunResult { regions, labels, tallies, pairs, rows }, "{}", map[0]);
        assert_eq!(read_result(&write_result(&found).expect(map[0])), Ok(found), "{}", map[0]);
    }
}
