//! The stored reports, replayed in both orders. vectors/README.md has the format.

use jenwyllt::{
    Cause, KeptLists, Map, PartitionLists, Refusal, Region, Report, SheetLists, partition, read_for_report, report_run,
    report_sheet,
};
use std::fs;
use std::path::Path;

fn bytes(word: &str) -> Vec<u8> {
    if word == "-" {
        return vec![];
    }
    (0..word.len()).step_by(2).map(|k| u8::from_str_radix(&word[k..k + 2], 16).expect("two digits")).collect()
}

/// Reads the sheet and runs it with lists that are long enough.
fn add(report: &mut Report, data: &[u8]) {
    let mut cells = vec![0; data.len()];
    let (mut spans, mut boundaries, mut anchors) = (vec![0; 1024], vec![0; 2304], vec![0; 512]);
    let lists = SheetLists { cells: &mut cells, spans: &mut spans, boundaries: &mut boundaries, anchors: &mut anchors };
    let Ok(header) = read_for_report(report, data, lists) else { return };
    let area = (header.width * header.height) as usize;
    let (cells, spans) = (&cells[..area], &spans[..4 * header.spans as usize]);
    let cut: Vec<_> = spans.chunks(4).map(|four| <[u64; 4]>::try_from(four).expect("four numbers").into()).collect();
    let (regions, pairs) =
        partition(header.width, header.height, cells, &cut).map_or((0, 0), |found| (found.regions as usize, found.pairs.len()));
    let map = Map {
        pass: header.pass,
        width: header.width,
        height: header.height,
        cells,
        spans,
        boundaries: &boundaries[..9 * header.boundaries as usize],
        anchors: &anchors[..2 * header.anchors as usize],
    };
    let lists = KeptLists {
        partition: PartitionLists {
            labels: &mut vec![0; area],
            masks: &mut vec![0; area],
            queue: &mut vec![0; area],
            tallies: &mut vec![0; 2 * header.spans as usize],
            pairs: &mut vec![0; 3 * pairs],
        },
        records: &mut vec![Region::default(); regions],
        output: &mut vec![0; 5 * header.boundaries as usize],
    };
    let answer = report_run(report, map, lists);
    assert!(answer.is_ok() || !matches!(answer.unwrap_err().cause(), Some(Cause::Room | Cause::Regions | Cause::Pairs)));
}

fn numbers(report: &Report) -> Vec<u64> {
    let figures = [report.pass_1, report.pass_2, report.pass_3].map(|f| [f.accepted, f.boundaries, f.kept, f.removed]);
    let means = [1, 2, 3].map(|pass| report.mean_kept(pass).map_or([0; 3], |mean| [1, mean.quotient, mean.remainder]));
    [&[report.runs][..], &report.refused, figures.as_flattened(), &[report.squared], means.as_flattened()].concat()
}

#[test]
fn stored() {
    let path = Path::new(env!("CARGO_MANIFEST_DIR")).join("../../vectors/report.txt");
    let text = fs::read_to_string(path).expect("vectors/report.txt");
    let mut count = 0;
    for line in text.lines() {
        let (words, said) = line.split_once(';').expect("two parts");
        let said: Vec<u64> = said.split(' ').map(|number| number.parse().expect("a number")).collect();
        let mut sheets: Vec<Vec<u8>> = words.split_whitespace().map(bytes).collect();
        for _ in 0..2 {
            let mut report = Report::empty();
            sheets.iter().for_each(|data| add(&mut report, data));
            assert_eq!(numbers(&report), said, "{line}");
            let mut report = Report::empty();
            sheets.iter().for_each(|data| drop(report_sheet(&mut report, data)));
            assert_eq!(numbers(&report), said, "{line}");
            sheets.reverse();
        }
        count += 1;
    }
    assert!(count >= 100);
}

#[test]
fn beyond() {
    let mut report = Report { runs: 10_000, ..Report::empty() };
    let before = report;
    add(&mut report, &[]);
    assert_eq!(report, before);
    assert_eq!(report_sheet(&mut report, &[]), Err(Refusal { number: 3, place: 0 }));
    assert_eq!(report, before);
}
