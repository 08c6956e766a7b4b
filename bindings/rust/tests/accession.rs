//! The stored lines of accession records, replayed: answer, place and every entry of the lent output. vectors/README.md has the format.

use jenwyllt::{Accession, Refusal, report_line, report_line_into};
use std::fs;
use std::path::Path;

fn numbers(part: &str) -> Vec<u64> {
    part.split_whitespace().map(|number| number.parse().expect("a number")).collect()
}

#[test]
fn stored() {
    let path = Path::new(env!("CARGO_MANIFEST_DIR")).join("../../vectors/accession.txt");
    let text = fs::read_to_string(path).expect("vectors/accession.txt");
    let mut count = 0;
    for line in text.lines() {
        let [records, asked, answer, rows] = line.split(';').map(numbers).collect::<Vec<_>>().try_into().expect("four parts");
        let [own, room] = asked[..] else { panic!("{line}") };
        let [number, value] = answer[..] else { panic!("{line}") };
        let before: Vec<u64> = (0..room).map(|k| 1_000_000_007 + k).collect();
        let mut output = before.clone();
        let said = report_line_into(&records, own, &mut output);
        assert_eq!(said, if number == 0 { Ok(value) } else { Err(Refusal { number, place: value }) }, "{line}");
        assert_eq!(output, [&rows[..], &before[rows.len()..]].concat(), "{line}");
        if number == 0 {
            let entries =
                |list: &[u64]| list.chunks(4).map(|four| <[u64; 4]>::try_from(four).unwrap().into()).collect::<Vec<Accession>>();
            assert_eq!(report_line(&entries(&records), own), Ok(entries(&rows)), "{line}");
        }
        count += 1;
    }
    assert!(count >= 1_800);
}
