//! The ranked junction list: the stored answers of vectors/ranked.txt, and 21. vectors/README.md has the format.

use jenwyllt::{
    KeptLists, PartitionLists, RankedProposal, Refusal, Region, Sheet, kept_boundaries, ranked_junctions, ranked_junctions_into,
    read_sheet,
};
use std::fs;
use std::path::Path;

const HELD: u32 = 77;

struct Stored {
    name: String,
    sheet: Sheet,
    ranked: Vec<u32>,
}

fn stored() -> Vec<Stored> {
    let path = Path::new(env!("CARGO_MANIFEST_DIR")).join("../../vectors/ranked.txt");
    let text = fs::read_to_string(&path).unwrap_or_else(|error| panic!("{}: {error}", path.display()));
    let lines: Vec<Vec<&str>> = text.lines().map(|line| line.split(' ').collect()).collect();
    let map = |map: &[Vec<&str>]| {
        let digits = map[1][2];
        let bytes: Vec<u8> =
            (0..digits.len() / 2).map(|i| u8::from_str_radix(&digits[2 * i..2 * i + 2], 16).expect("two digits")).collect();
        let ranked = map[3][2..].iter().map(|number| number.parse().expect("a number")).collect();
        Stored { name: map[0][1].into(), sheet: read_sheet(&bytes).expect("a sheet"), ranked }
    };
    lines.chunks(5).map(map).collect()
}

fn numbers(proposal: &RankedProposal) -> [u32; 6] {
    let [first, second] = proposal.regions;
    [proposal.bridge.into(), proposal.boundary, first, second, proposal.taken().into(), proposal.refused_by.unwrap_or(0)]
}

#[test]
fn as_stored() {
    let all = stored();
    assert!(all.len() > 100);
    let mut refused = 0;
    for Stored { name, sheet, ranked } in all {
        let found = ranked_junctions(&Sheet { pass: 1, ..sheet.clone() }).expect(&name);
        assert_eq!(found.proposals.iter().flat_map(numbers).collect::<Vec<_>>(), ranked, "{name}");
        assert_eq!(found.kept, kept_boundaries(&sheet).expect(&name), "{name}");
        refused += found.proposals.iter().filter(|proposal| !proposal.taken()).count();
    }
    assert!(refused > 200);
}

struct Lists {
    labels: Vec<u32>,
    masks: Vec<u16>,
    queue: Vec<u32>,
    tallies: Vec<u32>,
    pairs: Vec<u32>,
    records: Vec<Region>,
    output: Vec<u64>,
    ranked: Vec<u32>,
}

fn call(sheet: &Sheet, room: usize) -> (Result<(u64, u64), Refusal>, Lists) {
    let cells = sheet.cells.len();
    let mut lists = Lists {
        labels: vec![HELD; cells],
        masks: vec![HELD as u16; cells],
        queue: vec![HELD; cells],
        tallies: vec![HELD; 2 * sheet.spans.len()],
        pairs: vec![HELD; 3000],
        records: vec![Region::default(); cells],
        output: vec![HELD.into(); 5 * sheet.boundaries.len() + 1],
        ranked: vec![HELD; room],
    };
    let partition = PartitionLists {
        labels: &mut lists.labels,
        masks: &mut lists.masks,
        queue: &mut lists.queue,
        tallies: &mut lists.tallies,
        pairs: &mut lists.pairs,
    };
    let kept = KeptLists { partition, records: &mut lists.records, output: &mut lists.output };
    let answer = ranked_junctions_into(sheet.into(), kept, &mut lists.ranked);
    (answer, lists)
}

#[test]
fn too_few_rows() {
    let Stored { sheet, ranked, .. } = stored().into_iter().find(|map| map.ranked.len() >= 18).expect("a map of three proposals");
    let (answer, done) = call(&sheet, ranked.len() + 5);
    assert_eq!(answer.expect("it has room").1 as usize, ranked.len() / 6);
    assert_eq!(done.ranked, [ranked.as_slice(), &[HELD; 5]].concat());
    for room in [0, 1, ranked.len() - 1] {
        let (answer, short) = call(&sheet, room);
        assert_eq!(answer, Err(Refusal { number: 21, place: 0 }));
        assert_eq!(short.ranked, vec![0; room]);
        assert!(short.output.iter().all(|number| *number == u64::from(HELD)));
        assert_eq!((short.labels, short.masks, short.queue), (done.labels.clone(), done.masks.clone(), done.queue.clone()));
        assert_eq!((short.tallies, short.pairs, short.records), (done.tallies.clone(), done.pairs.clone(), done.records.clone()));
    }
}
