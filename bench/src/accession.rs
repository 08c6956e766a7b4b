//! The line of an accession record: a plain program with a hash map, and ours.

use crate::maps::Random;
use crate::timing::{time, timed};
use jenwyllt::{Accession, report_line, report_line_into};
use std::collections::HashMap;
use std::collections::hash_map::Entry;
use std::time::{Duration, Instant};

const RECORDS: usize = 100_000;
const SLOTS: u64 = 32_749;

pub fn run(budget: Duration) {
    println!("\naccession records, microseconds a call, least of many\n");
    println!("{:<44} {:>10} {:>10} {:>10}", "records", "hash map", "ours", "ratio");
    let mut random = Random(13);
    let drawn: Vec<u64> = (0..RECORDS / 2).map(|_| random.next()).collect();
    let lists: [(&str, Vec<Accession>); 6] = [
        ("100,000 of 100 maps in turn", list(RECORDS, |k| k as u64 % 100)),
        ("100,000 of one map", list(RECORDS, |_| 7)),
        ("100,000 of 50,000 maps, any numbers", list(RECORDS, |k| drawn[k % drawn.len()])),
        ("100,000 of as many maps, in order", list(RECORDS, |k| k as u64)),
        ("1,000 of 10 maps in turn", list(1_000, |k| k as u64 % 10)),
        ("10 of 3 maps in turn", list(10, |k| k as u64 % 3)),
    ];
    for (name, records) in &lists {
        let own = records.len() as u64 / 2;
        assert_eq!(plain(records, own), report_line(records, own).map_err(|refusal| refusal.place as usize));
        let numbers: Vec<u64> = records.iter().flat_map(|record| <[u64; 4]>::from(*record)).collect();
        let mut output = vec![0; numbers.len()];
        let calls = vec![timed(|| plain(records, own)), timed(|| report_line_into(&numbers, own, &mut output))];
        let times = time(budget, vec![calls]);
        let (theirs, ours) = (times[0][0].least(), times[0][1].least());
        println!("{name:<44} {theirs:>10.1} {ours:>10.1} {:>10.2}", ours / theirs);
    }
}

/// The longest that 100,000 records take, once: each is of a map of its own, and all in one slot of the table.
pub fn worst() {
    for count in [RECORDS / 4, RECORDS / 2, RECORDS] {
        let records = list(count, |k| SLOTS * k as u64);
        let begin = Instant::now();
        assert_eq!(report_line(&records, 1).map(|line| line.len()), Ok(1));
        println!("{count} records of as many maps, all in one slot: {:.2} s", begin.elapsed().as_secs_f64());
    }
}

/// So many records that keep the rules, of these maps.
fn list(count: usize, map: impl Fn(usize) -> u64) -> Vec<Accession> {
    let mut last = HashMap::new();
    let record = |k: usize| {
        let own = k as u64 + 1;
        Accession { own, map: map(k), day: own / 7, superseded: last.insert(map(k), own).unwrap_or(0) }
    };
    (0..count).map(record).collect()
}

/// The line, or the position of the first record that breaks a rule.
fn plain(records: &[Accession], own: u64) -> Result<Vec<Accession>, usize> {
    let mut newest = HashMap::new();
    let mut last = 0;
    for (place, record) in records.iter().enumerate() {
        if record.own <= last {
            return Err(place);
        }
        last = record.own;
        match newest.entry(record.map) {
            Entry::Vacant(entry) if record.superseded == 0 => {
                entry.insert((record.own, record.day));
            }
            Entry::Occupied(mut entry) if (record.superseded, true) == (entry.get().0, entry.get().1 <= record.day) => {
                entry.insert((record.own, record.day));
            }
            _ => return Err(place),
        }
    }
    let of_map = records.iter().find(|record| record.own == own).map(|record| record.map);
    Ok(records.iter().rev().filter(|record| Some(record.map) == of_map).copied().collect())
}
