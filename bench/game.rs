//! Runner and guard: `jenwyllt_solve_game` beside the same method in plain Rust, on a path, a cycle and random graphs of 32 regions.
//!
//!     rustc -O bench/game.rs -L target/lib -l static=jenwyllt -o target/bench_game && target/bench_game

use std::time::Instant;

#[repr(C)]
struct Answer {
    number: u64,
    value: u64,
}

unsafe extern "C" {
    fn jenwyllt_solve_game(regions: u64, pairs: *const u32, pairs_length: usize, goal: u64, verdicts: *mut u32, verdicts_length: usize) -> Answer;
}

/// Sets of regions as bits, sweeps until nothing changes, a rank for each place, and verdicts read from the ranks.
fn plain(regions: usize, pairs: &[u32], goal: usize, verdicts: &mut [u32]) {
    let mut near = [0u32; 32];
    for (i, set) in near.iter_mut().enumerate() {
        *set = 1 << i;
    }
    for pair in pairs.chunks_exact(2) {
        let (a, b) = (pair[0] as usize, pair[1] as usize);
        if (1..=regions).contains(&a) && (1..=regions).contains(&b) {
            near[a - 1] |= 1 << (b - 1);
            near[b - 1] |= 1 << (a - 1);
        }
    }
    let goal = goal - 1;
    let (mut runner, mut guard) = ([0u32; 32], [0u32; 32]);
    let mut ranks = vec![[[0u32; 2]; 32]; 32];
    for moves in 1.. {
        let (was_runner, was_guard) = (runner, guard);
        for g in 0..regions {
            let mut row = 0;
            for r in 0..regions {
                if r != g && (r == goal || near[r] & was_guard[g] != 0) {
                    row |= 1 << r;
                }
            }
            runner[g] = row;
            let mut row = !0;
            for d in 0..regions {
                if near[g] >> d & 1 == 1 {
                    row &= was_runner[d];
                }
            }
            guard[g] = if g != goal { row | 1 << goal } else { row };
        }
        if runner == was_runner && guard == was_guard {
            break;
        }
        for g in 0..regions {
            for (turn, found) in [runner[g] & !was_runner[g], guard[g] & !was_guard[g]].into_iter().enumerate() {
                if found != 0 {
                    for (r, rank) in ranks.iter_mut().enumerate() {
                        if found >> r & 1 == 1 {
                            rank[g][turn] = moves;
                        }
                    }
                }
            }
        }
    }
    for r in 0..regions {
        for g in 0..regions {
            for turn in 0..2 {
                let rank = ranks[r][g][turn];
                let idle = r == g || r == goal || (turn == 0) != (rank != 0);
                let serves = |d: usize| match turn {
                    0 => near[r] >> d & 1 == 1 && ranks[d][g][1] != 0 && ranks[d][g][1] < rank,
                    _ => near[g] >> d & 1 == 1 && ranks[r][d][0] == 0,
                };
                let region = if idle { 0 } else { (0..regions).find(|&d| serves(d)).map_or(regions, |d| d + 1) };
                let k = 3 * (2 * (r * regions + g) + turn);
                verdicts[k..k + 3].copy_from_slice(&[if rank == 0 { 2 } else { 1 }, rank.saturating_sub(1), region as u32]);
            }
        }
    }
}

fn proved(regions: usize, pairs: &[u32], goal: usize, verdicts: &mut [u32]) {
    // SAFETY: each pointer and length is a slice's own, and the slices do not overlap.
    let answer = unsafe { jenwyllt_solve_game(regions as u64, pairs.as_ptr(), pairs.len(), goal as u64, verdicts.as_mut_ptr(), verdicts.len()) };
    assert_eq!((answer.number, answer.value as usize), (0, 2 * regions * regions));
}

/// The least time of a call, in microseconds.
fn least(solve: fn(usize, &[u32], usize, &mut [u32]), pairs: &[u32], goal: usize, verdicts: &mut [u32]) -> f64 {
    (0..4_000)
        .map(|_| {
            let start = Instant::now();
            solve(32, pairs, goal, verdicts);
            start.elapsed().as_secs_f64() * 1e6
        })
        .fold(f64::MAX, f64::min)
}

fn main() {
    let path: Vec<u32> = (1..32).flat_map(|a| [a, a + 1]).collect();
    let mut cycle = path.clone();
    cycle.extend([32, 1]);
    let mut graphs = vec![("path", path), ("cycle", cycle)];
    let mut seed = 1u64;
    for density in [32, 48, 96, 320] {
        let pairs = (0..2 * density)
            .map(|_| {
                seed = seed.wrapping_mul(6364136223846793005).wrapping_add(1442695040888963407);
                (seed >> 33) as u32 % 32 + 1
            })
            .collect();
        graphs.push(("random", pairs));
    }
    println!("graph   pairs  library  plain  ratio (microseconds, least of 4,000)");
    for (name, pairs) in graphs {
        for goal in [1, 16] {
            let (mut one, mut two) = (vec![0; 6144], vec![0; 6144]);
            let (library, rust) = (least(proved, &pairs, goal, &mut one), least(plain, &pairs, goal, &mut two));
            assert_eq!(one, two, "{name}");
            println!("{name:7} {:5} {library:8.1} {rust:6.1} {:6.2}", pairs.len() / 2, library / rust);
        }
    }
}
