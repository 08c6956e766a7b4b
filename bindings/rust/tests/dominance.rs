//! The stored shares, replayed through the library, and those of the records of a call.

use jenwyllt::{Dominance, Region, Share, dominance, kept_boundaries, read_sheet};

#[test]
fn stored() {
    let mut count = 0;
    for line in include_str!("../../../vectors/dominance.txt").lines() {
        let numbers: Vec<u64> = line.split(' ').map(|number| number.parse().unwrap()).collect();
        let word = |k: usize| u32::try_from(numbers[k]).unwrap();
        let share = (numbers[6] == 1).then(|| Share { percent: numbers[7], remainder: numbers[8] });
        let found = dominance(word(0), [word(1), word(2), word(3), word(4)]);
        assert_eq!(found, Dominance { elevation: numbers[5], share }, "{line}");
        count += 1;
    }
    assert!(count >= 500);
}

#[test]
fn of_records() {
    let sheet = read_sheet(include_bytes!("../../../examples/case_j.sheet")).unwrap();
    let records = kept_boundaries(&sheet).unwrap().records;
    let whole = Dominance { elevation: 0, share: Some(Share { percent: 100, remainder: 0 }) };
    assert_eq!(records.iter().map(Region::dominance).collect::<Vec<_>>(), vec![Some(whole); 6]);
    assert_eq!(Region::default().dominance(), Some(Dominance { elevation: 0, share: None }));
    assert_eq!(Region { cells: 1 << 32, ..Region::default() }.dominance(), None);
}
