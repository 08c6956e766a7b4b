//! Sheets of kind 3: the stored answers of vectors/kinds.txt, and what is written and converted read back.

use jenwyllt::{Refusal, convert_sheet_into, read_sheet, write_sheet_into};

const STORED: &str = include_str!("../../../vectors/kinds.txt");

fn bytes(word: &str) -> Vec<u8> {
    let word = if word == "-" { "" } else { word };
    (0..word.len()).step_by(2).map(|k| u8::from_str_radix(&word[k..k + 2], 16).unwrap()).collect()
}

fn numbers(word: &str) -> Vec<u64> {
    if word == "-" { vec![] } else { word.split(',').map(|n| n.parse().unwrap()).collect() }
}

/// Room, number, value and bytes of a stored answer against what was said, and the list behind what was written.
fn check(line: &str, words: &[&str], call: impl FnOnce(&mut [u8]) -> Result<usize, Refusal>) {
    let [room, number, value] = [0, 1, 2].map(|k| words[k].parse::<u64>().unwrap());
    let mut out = vec![9; room as usize];
    let said = call(&mut out);
    let made = bytes(words[3]);
    match number {
        0 => assert_eq!((said, &out[..made.len()]), (Ok(value as usize), &made[..]), "{line}"),
        number => assert_eq!(said, Err(Refusal { number, place: value }), "{line}"),
    }
    assert!(out[made.len()..].iter().all(|byte| *byte == 9), "{line}");
    if number == 0 {
        assert_eq!((made[0], read_sheet(&made).is_ok()), (3, true), "{line}");
    }
}

#[test]
fn stored_answers() {
    let mut met = [0, 0];
    for line in STORED.lines() {
        let words: Vec<&str> = line.split(' ').collect();
        match words[0] {
            "convert" => {
                let sheet = bytes(words[1]);
                check(line, &words[2..], |out| convert_sheet_into(&sheet, out));
                met[0] += 1;
            }
            "write" => {
                let [pass, width, height] = [1, 2, 3].map(|k| words[k].parse().unwrap());
                let (cells, boundaries, anchors) = (bytes(words[4]), numbers(words[5]), numbers(words[6]));
                check(line, &words[7..], |out| write_sheet_into(pass, width, height, &cells, &boundaries, &anchors, out));
                met[1] += 1;
            }
            _ => {}
        }
    }
    assert!(met.iter().all(|count| *count > 100), "{met:?}");
}
