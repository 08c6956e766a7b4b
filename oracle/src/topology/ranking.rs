//! The ranking of pass 3, seen from inside a copy of the Rust's file: a child module of that copy, which calls `seen` behind its sort (build.rs puts the one line in). The order,
//! the choice and each conflict are what `select_proposals` does; nothing of them is decided here.

use super::{Proposal, remove_junction_boundaries, select_proposals};
use crate::topology::TopologyBoundary;
use crate::topology::context::PartitionContext;
use std::cell::RefCell;

thread_local! {
    static SEEN: RefCell<Vec<Proposal>> = const { RefCell::new(Vec::new()) };
}

/// What stands in rank order.
pub(super) fn seen(ranked: &[Proposal]) {
    SEEN.with_borrow_mut(|seen| *seen = ranked.to_vec());
}

/// What pass 3 keeps, and the ranked list: kind, boundary, two regions, 1 where it was taken, and the rank of what it was refused by.
pub fn rows(boundaries: &[TopologyBoundary], context: &PartitionContext<'_>) -> (Vec<TopologyBoundary>, Vec<[u64; 6]>) {
    seen(&[]);
    let kept = remove_junction_boundaries(boundaries, context);
    let ranked = SEEN.with_borrow(Clone::clone);
    let removed = |proposals: &[Proposal]| select_proposals(boundaries, proposals.to_vec()).len();
    let taken: Vec<bool> = (0..ranked.len()).map(|rank| removed(&ranked[..=rank]) > removed(&ranked[..rank])).collect();
    let conflicts = |q: usize, p: usize| removed(&[ranked[q].clone(), ranked[p].clone()]) == 1;
    let row = |(rank, proposal): (usize, &Proposal)| {
        let (kind, first, second) = proposal.tie_key();
        let by = (0..rank).find(|&earlier| taken[earlier] && conflicts(earlier, rank));
        assert_eq!(by.is_none(), taken[rank], "a refused one conflicts with a taken one");
        [u64::from(kind), proposal.index() as u64, first.into(), second.into(), taken[rank].into(), by.unwrap_or(0) as u64]
    };
    let rows = ranked.iter().enumerate().map(row).collect();
    (kept, rows)
}
