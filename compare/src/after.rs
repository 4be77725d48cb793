//! What the Rust does after a departure: compared with the account in every state that any operations reach.
use crate::account;
use crate::cases::{addresses, Pool};
use crate::definition::State;
use crate::departs::departs;
use crate::oracle::Rust;
use crate::tally::Tally;
use crate::words::{Answer, Op, Policy, Tile, M};
use std::collections::{HashMap, HashSet, VecDeque};

fn operations(pool: Pool) -> Vec<Op> {
    let mut ops = Vec::new();
    let mut policies = vec![Policy::First, Policy::Last];
    policies.extend(addresses(pool, 2).into_iter().map(Policy::Exact));
    for policy in policies {
        for align in [1, 2, 4] {
            for size in (1..=pool.size + 2).chain([M - 1, M]) {
                ops.push(Op::Allocate { size, align, policy });
            }
        }
    }
    let near: Vec<u64> = (pool.base.saturating_sub(2)..=pool.end().saturating_add(2)).collect();
    for &start in &near {
        ops.extend(near.iter().filter(|end| start <= **end).map(|&end| Op::Free { start, end }));
    }
    ops
}

/// Every operation in every state that operations of any kind lead to, departures included. Where the Rust
/// has no node left, a free of any pair puts that pair in: such states are gone into only if `made_up` says so.
pub fn departures(pool: Pool, made_up: bool) -> Tally {
    let mut tally = Tally::default();
    let ops = operations(pool);
    let start = Rust::new(pool.base, pool.size).expect("a pool");
    let mut known: HashSet<Vec<Tile>> = HashSet::from([start.tiles()]);
    let mut waiting = VecDeque::from([(start.tiles(), start)]);
    while let Some((tiles, here)) = waiting.pop_front() {
        tally.count("states", 1);
        let touching = tiles.windows(2).any(|t| t[0].free && t[1].free && t[0].end + 1 == t[1].start);
        let covered: u128 = tiles.iter().map(|t| (t.end - t.start) as u128 + 1).sum();
        tally.count("of them with free ranges that touch", touching as u64);
        tally.count("of them with addresses lost", (covered < pool.size as u128) as u64);
        tally.count("of them with no node left", tiles.is_empty() as u64);
        let outside = tiles.iter().any(|t| t.start < pool.base || pool.end() < t.end);
        tally.count("of them with addresses outside the pool", outside as u64);
        for op in &ops {
            let mut now = here.clone();
            let got = now.run(op);
            let left = now.tiles();
            let (told, told_tiles) = account::answer(&tiles, op);
            let expected = told_tiles.unwrap_or_else(|| tiles.clone());
            tally.check(got == told && left == expected, || {
                format!("pool {pool:x?} at {tiles:x?}; {op}: {got}, left {left:x?}; by the account {told}, {expected:x?}")
            });
            if let Answer::Granted(start, end) = got {
                let inside = pool.base <= start && end <= pool.end();
                tally.count("grants outside the pool", !inside as u64);
            }
            let invented = tiles.is_empty() && matches!(op, Op::Free { .. });
            if (made_up || !invented) && known.insert(left.clone()) {
                waiting.push_back((left, now));
            }
        }
    }
    tally
}

/// The Rust compares trees, not ranges: a shortest pair of sequences, neither with a departure, that lead to the same ranges
/// and to unequal allocators.
pub fn unequal_twins(pool: Pool) -> Option<(Vec<Op>, Vec<Op>)> {
    let mut steps = Vec::new();
    for size in 1..=pool.size {
        for policy in [Policy::First, Policy::Last] {
            steps.push(Op::Allocate { size, align: 1, policy });
        }
    }
    let start = Rust::new(pool.base, pool.size).expect("a pool");
    let mut known: HashMap<State, (Rust, Vec<Op>)> = HashMap::from([(pool.empty(), (start.clone(), Vec::new()))]);
    let mut waiting = VecDeque::from([(pool.empty(), start, Vec::new())]);
    while let Some((state, here, way)) = waiting.pop_front() {
        let frees = state.granted.iter().map(|r| Op::Free { start: r.0, end: r.1 });
        for op in steps.iter().copied().chain(frees) {
            let right = state.answer(&op);
            if departs(&state, &state.tiles(), &op, right).is_some() {
                continue;
            }
            let (mut now, mut way, after) = (here.clone(), way.clone(), state.next(&op, right));
            now.run(&op);
            way.push(op);
            match known.get(&after) {
                Some((twin, other)) if *twin != now => return Some((other.clone(), way)),
                Some(_) => {}
                None => {
                    known.insert(after.clone(), (now.clone(), way.clone()));
                    waiting.push_back((after, now, way));
                }
            }
        }
    }
    None
}
