//! Replays the stored calls of vectors/separations.txt.

use std::fs;
use std::path::Path;

use jenwyllt::{Boundary, Refusal, separations, separations_into};

const BEFORE: u64 = 60_000;

struct Call {
    width: u64,
    height: u64,
    boundaries: Vec<u64>,
    room: usize,
    answer: (u64, u64),
    rows: Vec<[u64; 5]>,
}

fn calls() -> Vec<Call> {
    let path = Path::new(env!("CARGO_MANIFEST_DIR")).join("../../vectors/separations.txt");
    let text = fs::read_to_string(path).expect("vectors/separations.txt");
    text.lines().map(call).collect()
}

fn call(line: &str) -> Call {
    let numbers: Vec<u64> = line.split(' ').map(|word| word.parse().expect("a number")).collect();
    let (boundaries, rest) = numbers[3..].split_at(numbers[2] as usize);
    Call {
        width: numbers[0],
        height: numbers[1],
        boundaries: boundaries.to_vec(),
        room: rest[0] as usize,
        answer: (rest[1], rest[2]),
        rows: rest[3..].chunks(5).map(|row| row.try_into().expect("five numbers")).collect(),
    }
}

/// The same numbers and bits, and the same fraction, however it is written.
fn same(found: &[u64], expected: &[u64; 5]) -> bool {
    let product = |x: u64, y: u64| u128::from(x) * u128::from(y);
    found[..3] == expected[..3] && product(found[3], expected[4]) == product(expected[3], found[4]) && found[4] > 0
}

#[test]
fn stored_calls() {
    let (mut accepted, mut refused) = (0, 0);
    for Call { width, height, boundaries, room, answer, rows } in calls() {
        let mut output = vec![BEFORE; room];
        match separations_into(width, height, &boundaries, &mut output) {
            Ok(count) => {
                assert_eq!((0, count), answer, "{boundaries:?}");
                assert_eq!(count as usize, rows.len());
                accepted += 1;
            }
            Err(Refusal { number, place, .. }) => {
                assert_eq!((number, place), answer, "{boundaries:?}");
                refused += 1;
            }
        }
        let (front, behind) = output.split_at(5 * rows.len());
        assert!(front.chunks(5).zip(&rows).all(|(found, expected)| same(found, expected)), "{boundaries:?}");
        assert!(behind.iter().all(|&number| number == BEFORE), "{boundaries:?}");
    }
    assert!(accepted > 150 && refused > 80, "{accepted} {refused}");
}

#[test]
fn as_structs() {
    for Call { width, height, boundaries, answer, rows, .. } in calls() {
        let (whole, rest) = boundaries.as_chunks::<9>();
        if answer.0 == 0 && rest.is_empty() {
            let whole: Vec<_> = whole.iter().map(|nine| Boundary::from(*nine)).collect();
            let found = separations(width, height, &whole).expect("accepted");
            assert_eq!(found.len(), rows.len());
            for (each, row) in found.iter().zip(&rows) {
                assert!(same(&[each.smaller, each.larger, each.value.to_bits(), each.numerator, each.denominator], row));
            }
        }
    }
}
