//! Replays the stored calls of vectors/desks.txt, in the order told and in the other.

use std::collections::BTreeSet;
use std::fs;
use std::path::Path;

use jenwyllt::{DeskLists, Order, PartitionLists, Refusal, Region, Terrain, two_desks_into};

/// The fields of a line, each a list of numbers; vectors/README.md has their order.
fn calls() -> Vec<Vec<Vec<u64>>> {
    let path = Path::new(env!("CARGO_MANIFEST_DIR")).join("../../vectors/desks.txt");
    let text = fs::read_to_string(path).expect("vectors/desks.txt");
    let numbers = |field: &str| field.split_whitespace().map(|word| word.parse().expect("a number")).collect();
    text.lines().map(|line| line.split(';').map(numbers).collect()).collect()
}

/// What a list holds before a call.
fn before(i: usize) -> u64 {
    60_000 + (i % 5_000) as u64
}

/// A list of so many entries with these in front.
fn with(changed: &[u64], count: u64) -> Vec<u64> {
    let count = count as usize;
    changed.iter().copied().chain((changed.len()..count).map(before)).collect()
}

fn narrow(list: Vec<u64>) -> Vec<u32> {
    list.into_iter().map(|n| n as u32).collect()
}

fn record(eleven: &[u64]) -> Region {
    let edge = |i: usize| eleven[i] as f64;
    Region {
        cells: eleven[0] as usize,
        min_x: edge(1),
        min_y: edge(2),
        max_x: edge(3),
        max_y: edge(4),
        ramp_cells: eleven[5] as usize,
        elevations: eleven[6] as u8,
        elevation_counts: [7, 8, 9, 10].map(|i| eleven[i] as usize),
    }
}

fn number(answer: Result<u64, Refusal>) -> (u64, u64) {
    answer.map_or_else(|refusal| (refusal.number, refusal.place), |count| (0, count))
}

#[test]
fn stored_calls() {
    let mut seen = BTreeSet::new();
    for call in calls() {
        for order in [Order::RouteFirst, Order::CoachingFirst] {
            let cells: Vec<u8> = call[2].iter().map(|&n| n as u8).collect();
            let room = &call[12];
            let [mut labels, mut queue, mut tallies, mut pairs] = [0, 2, 3, 4].map(|i| narrow(with(&[], room[i])));
            let mut masks: Vec<u16> = with(&[], room[1]).into_iter().map(|n| n as u16).collect();
            let mut records = vec![Region::default(); room[5] as usize];
            let (mut first, mut second) = (with(&[], call[7][0]), with(&[], call[11][0]));
            let answer = two_desks_into(
                order,
                Terrain { width: call[1][0], height: call[1][1], cells: &cells, spans: &call[3] },
                DeskLists { pass: call[4][0], boundaries: &call[5], anchors: &call[6], output: &mut first },
                DeskLists { pass: call[8][0], boundaries: &call[9], anchors: &call[10], output: &mut second },
                PartitionLists {
                    labels: &mut labels,
                    masks: &mut masks,
                    queue: &mut queue,
                    tallies: &mut tallies,
                    pairs: &mut pairs,
                },
                &mut records,
            );
            let (route, coaching) = (number(answer.route), number(answer.coaching));
            assert_eq!([route.0, route.1, coaching.0, coaching.1], call[13][..], "{call:?}");
            assert_eq!(
                [labels, queue, tallies, pairs],
                [(14, 0), (16, 2), (17, 3), (18, 4)].map(|(at, i)| narrow(with(&call[at], room[i])))
            );
            assert_eq!(masks, with(&call[15], room[1]).into_iter().map(|n| n as u16).collect::<Vec<_>>());
            let filled: Vec<Region> = call[19].chunks(11).map(record).collect();
            assert_eq!(records[..filled.len()], filled);
            assert!(records[filled.len()..].iter().all(|&left| left == Region::default()));
            assert_eq!([first, second], [with(&call[20], call[7][0]), with(&call[21], call[11][0])]);
            seen.extend([route.0, coaching.0]);
        }
    }
    assert_eq!(seen.into_iter().collect::<Vec<_>>(), [0, 1, 2, 3, 4, 5, 6, 7, 8, 9, 10, 11, 12, 20]);
}
