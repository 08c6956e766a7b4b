//! The stored maps of days, replayed: answer, place and every entry of the lent output. vectors/README.md has the format.

use jenwyllt::{Accession, Date, Refusal, Term, maps_of_day, maps_of_day_into};
use std::fs;
use std::path::Path;

fn numbers(part: &str) -> Vec<u64> {
    part.split_whitespace().map(|number| number.parse().expect("a number")).collect()
}

#[test]
fn stored() {
    let path = Path::new(env!("CARGO_MANIFEST_DIR")).join("../../vectors/pool.txt");
    let text = fs::read_to_string(path).expect("vectors/pool.txt");
    let mut count = 0;
    for line in text.lines() {
        let [terms, records, asked, answer, rows] =
            line.split(';').map(numbers).collect::<Vec<_>>().try_into().expect("five parts");
        let [year, month, day, room] = asked[..] else { panic!("{line}") };
        let [number, value] = answer[..] else { panic!("{line}") };
        let asked = Date { year, month, day };
        let before: Vec<u64> = (0..room).map(|k| 1_000_000_007 + k).collect();
        let mut output = before.clone();
        let said = maps_of_day_into(&terms, &records, asked, &mut output);
        assert_eq!(said, if number == 0 { Ok(value) } else { Err(Refusal { number, place: value }) }, "{line}");
        assert_eq!(output, [&rows[..], &before[rows.len()..]].concat(), "{line}");
        if number == 0 {
            let terms: Vec<Term> = terms.chunks(7).map(|seven| <[u64; 7]>::try_from(seven).unwrap().into()).collect();
            let records: Vec<Accession> = records.chunks(4).map(|four| <[u64; 4]>::try_from(four).unwrap().into()).collect();
            let entries = maps_of_day(&terms, &records, asked).expect(line);
            let listed: Vec<u64> = entries
                .iter()
                .flat_map(|entry| {
                    let r = entry.record.unwrap_or_default();
                    [entry.map, r.own, r.day, r.superseded]
                })
                .collect();
            assert_eq!(listed, rows, "{line}");
        }
        count += 1;
    }
    assert!(count >= 2_000);
}
