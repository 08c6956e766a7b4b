//! The maps in the pool on a day: a plain program with a hash map and a sort, and ours.

use crate::timing::{time, timed};
use jenwyllt::{Accession, Date, Entry, Term, maps_of_day, maps_of_day_into};
use std::collections::HashMap;
use std::time::Duration;

pub fn run(budget: Duration) {
    println!("\nthe maps of a day, microseconds a call, least of many\n");
    println!("{:<60} {:>10} {:>10} {:>10}", "terms and records", "plain", "ours", "ratio");
    let cases = [
        (10, 5, 30, Order::Days),
        (100, 20, 300, Order::Days),
        (1_000, 100, 3_000, Order::Days),
        (1_000, 100, 3_000, Order::Mixed),
        (10_000, 500, 30_000, Order::Days),
        (10_000, 10_000, 30_000, Order::Days),
        (10_000, 500, 30_000, Order::LastFirst),
        (10_000, 500, 30_000, Order::Mixed),
        (10_000, 1, 30_000, Order::LastFirst),
        (10_000, 500, 30_000, Order::Overlap),
        (100_000, 5_000, 30_000, Order::Mixed),
        (100_000, 5_000, 30_000, Order::Overlap),
        (1_000_000, 50_000, 30_000, Order::Mixed),
    ];
    for (terms, maps, records, order) in cases {
        let name = format!("{terms} terms of {maps} maps{}, {records} records", order.words());
        let listed = order.of((0..terms).map(|k| term((k % maps) as u64 * 7, (k / maps) as u64 * 3)).collect());
        let catalogue = list(records, maps);
        let asked = date(terms as u64 / maps as u64 * 3 / 2);
        assert_eq!(plain(&listed, &catalogue, asked), maps_of_day(&listed, &catalogue, asked).ok());
        let (flat, numbers): (Vec<u64>, Vec<u64>) = (
            listed.iter().flat_map(|term| <[u64; 7]>::from(*term)).collect(),
            catalogue.iter().flat_map(|record| <[u64; 4]>::from(*record)).collect(),
        );
        let mut output = vec![0; 4 * terms];
        let calls = vec![timed(|| plain(&listed, &catalogue, asked)), timed(|| maps_of_day_into(&flat, &numbers, asked, &mut output))];
        let times = time(budget, vec![calls]);
        let (theirs, ours) = (times[0][0].least(), times[0][1].least());
        println!("{name:<60} {theirs:>10.1} {ours:>10.1} {:>10.2}", ours / theirs);
    }
}

/// A call for which both checks, of records and of terms, need their large tables.
pub fn mixed_call() -> impl FnMut() {
    let (terms, maps) = (40_000, 2_000);
    let listed = Order::Mixed.of((0..terms).map(|k| term((k % maps) as u64 * 7, (k / maps) as u64 * 3)).collect());
    let flat: Vec<u64> = listed.iter().flat_map(|term| <[u64; 7]>::from(*term)).collect();
    let numbers: Vec<u64> = list(30_000, maps).iter().flat_map(|record| <[u64; 4]>::from(*record)).collect();
    let mut output = vec![0; 4 * maps];
    move || assert!(maps_of_day_into(&flat, &numbers, date(30), &mut output).is_ok())
}

/// How the terms come: in the order of their days, the last first, in any order, or so with one in the middle that overlaps an earlier one.
enum Order {
    Days,
    LastFirst,
    Mixed,
    Overlap,
}

impl Order {
    fn words(&self) -> &str {
        match self {
            Order::Days => "",
            Order::LastFirst => ", the last first",
            Order::Mixed => ", mixed",
            Order::Overlap => ", mixed, one overlaps",
        }
    }

    fn of(&self, mut terms: Vec<Term>) -> Vec<Term> {
        match self {
            Order::Days => {}
            Order::LastFirst => terms.reverse(),
            Order::Mixed => mix(&mut terms),
            Order::Overlap => {
                mix(&mut terms);
                let middle = terms.len() / 2;
                terms[middle] = terms[middle / 2];
            }
        }
        terms
    }
}

fn mix(terms: &mut [Term]) {
    let mut state = 1u64;
    for k in (1..terms.len()).rev() {
        state = state.wrapping_mul(6_364_136_223_846_793_005).wrapping_add(1);
        terms.swap(k, (state >> 33) as usize % (k + 1));
    }
}

/// Three days of a map.
fn term(map: u64, first: u64) -> Term {
    Term { map, first: date(first), end: date(first + 3) }
}

/// The date of a day's number, by the days of each month.
fn date(mut number: u64) -> Date {
    let (mut year, mut month) = (2000, 1);
    while number >= month_days(year, month) {
        number -= month_days(year, month);
        (year, month) = if month == 12 { (year + 1, 1) } else { (year, month + 1) };
    }
    Date { year, month, day: number + 1 }
}

fn month_days(year: u64, month: u64) -> u64 {
    [31, if year % 4 == 0 { 29 } else { 28 }, 31, 30, 31, 30, 31, 31, 30, 31, 30, 31][month as usize - 1]
}

fn list(count: usize, maps: usize) -> Vec<Accession> {
    (0..count).map(|k| Accession { own: k as u64 + 1, map: (k % maps) as u64 * 7, day: (k / maps) as u64, superseded: (k + 1).saturating_sub(maps) as u64 }).collect()
}

fn number(date: Date) -> Option<u64> {
    let Date { year, month, day } = date;
    if !(2000..2100).contains(&year) || !(1..=12).contains(&month) || !(1..=month_days(year, month)).contains(&day) {
        return None;
    }
    Some(365 * (year - 2000) + (year - 1997) / 4 + (1..month).map(|m| month_days(year, m)).sum::<u64>() + day - 1)
}

/// The maps of the day, or nothing where a record or a term breaks a rule.
fn plain(terms: &[Term], records: &[Accession], asked: Date) -> Option<Vec<Entry>> {
    let mut last: HashMap<u64, Accession> = HashMap::new();
    let mut own = 0;
    for record in records {
        let before = last.insert(record.map, *record);
        if record.own <= own || record.superseded != before.map_or(0, |b| b.own) || before.is_some_and(|b| record.day < b.day) {
            return None;
        }
        own = record.own;
    }
    let mut days = Vec::with_capacity(terms.len());
    for term in terms {
        let (first, end) = (number(term.first)?, if term.end == (Date { year: 2100, month: 1, day: 1 }) { 36_525 } else { number(term.end)? });
        days.push((term.map, first, end));
        if end <= first {
            return None;
        }
    }
    let asked = number(asked)?;
    days.sort_unstable();
    if days.windows(2).any(|pair| pair[0].0 == pair[1].0 && pair[1].1 < pair[0].2) {
        return None;
    }
    let mut newest = HashMap::new();
    for record in records.iter().filter(|record| record.day <= asked) {
        newest.insert(record.map, *record);
    }
    let listed = days.iter().filter(|(_, first, end)| (*first..*end).contains(&asked));
    Some(listed.map(|(map, _, _)| Entry { map: *map, record: newest.get(map).copied() }).collect())
}
