//! The small pools of the exhaustive runs: which pools, which operations, and every state with a way to it.
use crate::definition::State;
use crate::departs::departs;
use crate::words::{Op, Policy, M};
use std::collections::{HashMap, VecDeque};

/// A pool of `size` addresses.
#[derive(Clone, Copy, Debug, PartialEq)]
pub struct Pool {
    pub base: u64,
    pub size: u64,
}

impl Pool {
    pub fn end(self) -> u64 {
        self.base + (self.size - 1)
    }

    pub fn empty(self) -> State {
        State { base: self.base, end: self.end(), granted: Vec::new() }
    }
}

/// The bases of the runs: at the bottom, in the middle (with 2^63 inside), and so that the end is M, M-1, M-2.
pub fn pools(sizes: std::ops::RangeInclusive<u64>) -> Vec<Pool> {
    let mut pools = Vec::new();
    for size in sizes {
        for base in [0, 1, 2, 5, (1 << 63) - 3, M - size - 1, M - size, M - size + 1] {
            pools.push(Pool { base, size });
        }
    }
    pools
}

fn sorted(mut numbers: Vec<u64>) -> Vec<u64> {
    numbers.sort();
    numbers.dedup();
    numbers
}

/// The addresses around a pool, and the outermost ones.
pub fn addresses(pool: Pool, around: u64) -> Vec<u64> {
    let mut all = vec![0, 1, 2, M - 2, M - 1, M];
    all.extend(pool.base.saturating_sub(around)..=pool.end().saturating_add(around));
    sorted(all)
}

/// Sizes from 0 to two beyond the pool, those with which a range from the pool ends at M or just beyond, and huge ones.
pub fn sizes(pool: Pool) -> Vec<u64> {
    let mut all = vec![1 << 63, M - 1, M];
    all.extend(0..=pool.size + 2);
    for at in pool.base..=pool.end() {
        all.extend([(M - at).saturating_add(1), (M - at).saturating_add(2)]);
    }
    sorted(all)
}

pub const ALIGNMENTS: [u64; 7] = [1, 2, 4, 8, 1 << 63, 0, 3];

/// Every request with one of the alignments.
pub fn requests(pool: Pool, alignments: &[u64]) -> Vec<Op> {
    let mut policies = vec![Policy::First, Policy::Last];
    policies.extend(addresses(pool, 3).into_iter().map(Policy::Exact));
    let mut ops = Vec::new();
    for &policy in &policies {
        for &align in alignments {
            for size in sizes(pool) {
                ops.push(Op::Allocate { size, align, policy });
            }
        }
    }
    ops
}

/// Every pair of addresses around the pool, reversed ones included, and pairs of outermost ones.
pub fn frees(pool: Pool) -> Vec<Op> {
    let near: Vec<u64> = (pool.base.saturating_sub(2)..=pool.end().saturating_add(2)).collect();
    let mut ops = Vec::new();
    for &start in &near {
        ops.extend(near.iter().map(|&end| Op::Free { start, end }));
    }
    for (start, end) in [(0, M), (0, 0), (M, M), (1, M), (0, M - 1), (M, 0), (pool.base, M), (0, pool.end())] {
        ops.push(Op::Free { start, end });
    }
    ops
}

/// Every operation that the exhaustive runs try in every state.
pub fn operations(pool: Pool) -> Vec<Op> {
    let mut ops = requests(pool, &ALIGNMENTS);
    ops.extend(frees(pool));
    ops
}

/// Every set of disjoint ranges in the pool.
pub fn every_state(pool: Pool) -> Vec<State> {
    fn extend(state: &State, from: u64, all: &mut Vec<State>) {
        all.push(state.clone());
        for start in from..=state.end {
            for end in start..=state.end {
                let mut more = state.clone();
                more.granted.push((start, end));
                match end.checked_add(1) {
                    Some(next) => extend(&more, next, all),
                    None => all.push(more),
                }
            }
        }
    }
    let mut all = Vec::new();
    extend(&pool.empty(), pool.base, &mut all);
    all
}

fn exact(start: u64, end: u64) -> Op {
    Op::Allocate { size: end - start + 1, align: 1, policy: Policy::Exact(start) }
}

/// The granted ranges one by one, from the lowest.
pub fn upwards(state: &State) -> Vec<Op> {
    state.granted.iter().map(|r| exact(r.0, r.1)).collect()
}

/// Another way to the same state: everything is granted, from the highest range down, and what is to be free given back.
pub fn downwards(state: &State) -> Vec<Op> {
    let tiles = state.tiles();
    let mut ops: Vec<Op> = tiles.iter().rev().map(|t| exact(t.start, t.end)).collect();
    ops.extend(tiles.iter().filter(|t| t.free).map(|t| Op::Free { start: t.start, end: t.end }));
    ops
}

/// The states that are reached without a departure, each with a shortest way, in order of its length.
pub struct Clear {
    pub states: Vec<State>,
    from: Vec<Option<(usize, Op)>>,
}

impl Clear {
    pub fn of(pool: Pool) -> Clear {
        let mut steps = Vec::new();
        for size in 1..=pool.size {
            for policy in [Policy::First, Policy::Last] {
                steps.push(Op::Allocate { size, align: 1, policy });
            }
            for at in pool.base..=pool.end() {
                steps.push(Op::Allocate { size, align: 1, policy: Policy::Exact(at) });
            }
        }
        let mut clear = Clear { states: vec![pool.empty()], from: vec![None] };
        let mut known = HashMap::from([(Vec::new(), 0)]);
        let mut waiting = VecDeque::from([0]);
        while let Some(i) = waiting.pop_front() {
            let state = clear.states[i].clone();
            let tiles = state.tiles();
            let frees = state.granted.iter().map(|r| Op::Free { start: r.0, end: r.1 });
            for op in steps.iter().copied().chain(frees) {
                let answer = state.answer(&op);
                if departs(&state, &tiles, &op, answer).is_some() {
                    continue;
                }
                let after = state.next(&op, answer);
                if !known.contains_key(&after.granted) {
                    known.insert(after.granted.clone(), clear.states.len());
                    waiting.push_back(clear.states.len());
                    clear.states.push(after);
                    clear.from.push(Some((i, op)));
                }
            }
        }
        clear
    }

    pub fn path(&self, mut i: usize) -> Vec<Op> {
        let mut ops = Vec::new();
        while let Some((before, op)) = self.from[i] {
            ops.push(op);
            i = before;
        }
        ops.reverse();
        ops
    }
}
