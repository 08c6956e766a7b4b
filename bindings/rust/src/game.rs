//! Runner and guard on a graph, and on the kept graph of a map.

use crate::entries::flat_mut;
use crate::exported::{jenwyllt_runner_and_guard, jenwyllt_solve_game};
use crate::partition::Room;
use crate::{Cause, KeptLists, Map, Partition, PartitionLists, Refusal, Region, Row, Sheet};

/// How many numbers the list of verdicts has room for: 3 for each place of 32 regions.
pub const VERDICTS_LENGTH: usize = 6144;

/// Who can force a win.
#[derive(Debug, Clone, Copy, PartialEq, Eq, Hash)]
pub enum Winner {
    /// Who is to reach the goal.
    Runner,
    /// Who is to catch the runner, or to keep play going for ever.
    Guard,
}

/// What holds at a place, for all ways of play.
#[derive(Debug, Clone, Copy, PartialEq, Eq, Hash)]
pub struct Verdict {
    /// Who can force a win.
    pub winner: Winner,
    /// The fewest moves of both sides in which the runner can force it; 0 for the guard.
    pub moves: u32,
    /// The least region that serves a winner who is to move. `None` where play is over or the winner is not to move.
    pub region: Option<u32>,
}

/// The verdicts of all places of a graph.
#[derive(Debug, Clone, PartialEq, Eq)]
pub struct Game {
    regions: usize,
    verdicts: Vec<[u32; 3]>,
}

impl Game {
    fn of(regions: usize, numbers: &[u32]) -> Game {
        let verdicts = numbers.chunks_exact(3).take(2 * regions * regions).map(|three| [three[0], three[1], three[2]]).collect();
        Game { regions, verdicts }
    }

    /// How many regions the graph has.
    pub fn regions(&self) -> usize {
        self.regions
    }

    /// The verdict where runner and guard stand on these regions, from 1, and the runner is to move or not.
    ///
    /// Panics where one of the two is no region of the graph.
    pub fn at(&self, runner: usize, guard: usize, runners_turn: bool) -> Verdict {
        assert!((1..=self.regions).contains(&runner) && (1..=self.regions).contains(&guard), "no such place");
        let [winner, moves, region] = self.verdicts[2 * ((runner - 1) * self.regions + guard - 1) + usize::from(!runners_turn)];
        let winner = if winner == 1 { Winner::Runner } else { Winner::Guard };
        Verdict { winner, moves, region: (region != 0).then_some(region) }
    }
}

/// Solves the game on a graph of up to 32 regions, numbered from 1. An edge that names 0 or a number above `regions` is none.
///
/// Refuses 23 and 24.
///
/// ```
/// use jenwyllt::{Cause, Winner, solve_game};
///
/// let game = solve_game(5, &[[1, 2], [2, 3], [3, 4], [4, 5], [5, 1]], 3).unwrap();
/// let verdict = game.at(1, 5, true);
/// assert_eq!((verdict.winner, verdict.moves, verdict.region), (Winner::Runner, 3, Some(2)));
/// assert_eq!(game.at(1, 5, false).region, Some(1));
/// assert_eq!(solve_game(33, &[], 1).unwrap_err().cause(), Some(Cause::Graph));
/// ```
pub fn solve_game(regions: u64, edges: &[[u32; 2]], goal: u64) -> Result<Game, Refusal> {
    let mut verdicts = vec![0; VERDICTS_LENGTH];
    solve_game_into(regions, edges.as_flattened(), goal, &mut verdicts)?;
    Ok(Game::of(regions as usize, &verdicts))
}

/// The same with a list that the caller lends; answers how many verdicts of three numbers were written, as include/jenwyllt.h says.
///
/// Refuses 3 and 10 too, where the last pair is unfinished or the list is shorter than [`VERDICTS_LENGTH`]. It stays as it was with every
/// refusal.
pub fn solve_game_into(regions: u64, pairs: &[u32], goal: u64, verdicts: &mut [u32]) -> Result<u64, Refusal> {
    // SAFETY: each pointer and length is a slice's own, so it is aligned, not null, and valid for that length, for writes where the
    // function fills; the slice lent as `&mut` overlaps no other, and nothing else uses it before the call returns. The function is
    // proved for lists of any content and length, keeps no pointer and does not unwind.
    let answer =
        unsafe { jenwyllt_solve_game(regions, pairs.as_ptr(), pairs.len(), goal, verdicts.as_mut_ptr(), verdicts.len()) };
    answer.result()
}

/// How many rows are kept, and the regions of the kept graph.
#[derive(Debug, Clone, Copy, PartialEq, Eq)]
pub struct Played {
    /// Rows of the output.
    pub kept: u64,
    /// Of the second partition.
    pub regions: u64,
}

/// Runner and guard on the kept graph of a map.
#[derive(Debug, Clone, PartialEq)]
pub struct KeptGame {
    /// The verdicts.
    pub game: Game,
    /// The map cut again by the boundaries that the pass keeps, in the order of the sheet: its regions are those of the game, and its pairs the edges.
    pub partition: Partition,
    /// The record of each region of the partition, that of label 1 first.
    pub records: Vec<Region>,
    /// The boundaries that are kept, ascending by endpoints; numbers are those of the sheet.
    pub rows: Vec<Row>,
}

/// Solves the game on the kept graph of a map, for the pass that the sheet names. The goal is a region of that graph, from 1.
///
/// Refuses 1 to 9, 16 where spans and boundaries are not one list, 23 and 24.
///
/// ```
/// // Three cells in a row, cut behind the first and behind the second, where a ramp begins: its mouth goes, so that two regions are left.
/// use jenwyllt::{Boundary, Cause, Winner, runner_and_guard};
///
/// let mouth = Boundary::new([8, 0, 8, 8], 8.0);
/// let foot = Boundary { kind: Boundary::LOWER, ramp: 7, upper: 1, ..Boundary::new([16, 0, 16, 8], 8.0) };
/// let sheet = jenwyllt::Sheet {
///     pass: 1,
///     width: 3,
///     height: 1,
///     cells: vec![1, 1, 1],
///     spans: vec![mouth.span(), foot.span()],
///     boundaries: vec![mouth, foot],
///     anchors: vec![],
/// };
/// let kept = runner_and_guard(&sheet, 2).unwrap();
/// assert_eq!((kept.game.regions(), &kept.partition.labels[..]), (2, &[1, 1, 2][..]));
/// assert_eq!((kept.game.at(2, 1, true).winner, kept.game.at(1, 2, true).winner), (Winner::Runner, Winner::Guard));
/// assert_eq!(runner_and_guard(&sheet, 3).unwrap_err().cause(), Some(Cause::Goal));
/// ```
pub fn runner_and_guard(sheet: &Sheet, goal: u64) -> Result<KeptGame, Refusal> {
    let mut room = Room::new(sheet.cells.len(), sheet.spans.len());
    let mut records = vec![Region::default(); 1 + 2 * sheet.spans.len()];
    let mut rows = vec![Row::default(); sheet.boundaries.len()];
    let mut verdicts = vec![0; VERDICTS_LENGTH];
    loop {
        let lists = KeptLists { partition: room.lists(), records: &mut records, output: flat_mut(&mut rows) };
        let answer = runner_and_guard_into(sheet.into(), goal, lists, &mut verdicts);
        if answer.is_err_and(|refusal| refusal.cause() == Some(Cause::Regions)) {
            // The labels are filled, those of the first partition, which has the most regions.
            records = vec![Region::default(); room.regions() as usize];
        } else if !room.grown_for(answer.map(|played| played.kept)) {
            let Played { kept, regions } = answer?;
            rows.truncate(kept as usize);
            records.truncate(regions as usize);
            let mut partition = room.filled(regions);
            partition.tallies.truncate(kept as usize);
            return Ok(KeptGame { game: Game::of(regions as usize, &verdicts), partition, records, rows });
        }
    }
}

/// The same with lists that the caller lends: the lists of the partition and the records are those of the second partition, and zero where only the first
/// filled, as include/jenwyllt.h says.
///
/// Refuses 10, 11 and 12 too. With 23 and 24 the lists but the verdicts are as on success; with 11 and 12 as for a pass; with any other refusal every list
/// stays as it was.
pub fn runner_and_guard_into(map: Map<'_>, goal: u64, lists: KeptLists<'_>, verdicts: &mut [u32]) -> Result<Played, Refusal> {
    let Map { pass, width, height, cells, spans, boundaries, anchors } = map;
    let KeptLists { partition: PartitionLists { labels, masks, queue, tallies, pairs }, records, output } = lists;
    // SAFETY: each pointer and length is a slice's own, so it is aligned, not null, and valid for that length, for writes where the
    // function fills; slices lent as `&mut` overlap no other, and nothing else uses them before the call returns. `Region` has the
    // layout of the header. The function is proved for lists of any content and length, keeps no pointer and does not unwind.
    let answer = unsafe {
        jenwyllt_runner_and_guard(
            pass,
            width,
            height,
            cells.as_ptr(),
            cells.len(),
            spans.as_ptr(),
            spans.len(),
            boundaries.as_ptr(),
            boundaries.len(),
            anchors.as_ptr(),
            anchors.len(),
            goal,
            labels.as_mut_ptr(),
            labels.len(),
            masks.as_mut_ptr(),
            masks.len(),
            queue.as_mut_ptr(),
            queue.len(),
            tallies.as_mut_ptr(),
            tallies.len(),
            pairs.as_mut_ptr(),
            pairs.len(),
            records.as_mut_ptr(),
            records.len(),
            output.as_mut_ptr(),
            output.len(),
            verdicts.as_mut_ptr(),
            verdicts.len(),
        )
    };
    match answer.number {
        0 => Ok(Played { kept: answer.value, regions: answer.regions }),
        number => Err(Refusal { number, place: answer.value }),
    }
}
