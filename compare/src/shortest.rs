//! The shortest sequence for each class of departure, and for each thing that follows from one, found by search.
use crate::account;
use crate::cases::{frees, pools, requests, Clear, Pool};
use crate::definition::State;
use crate::departs::{departs, Class};
use crate::words::{Answer, Op, Policy, Tile};
use std::collections::{BTreeMap, HashSet};

/// A pool, a sequence on it, and how good an example it is: fewer operations, then fewer addresses, then an earlier base.
#[derive(Clone, Debug)]
pub struct Found {
    pub pool: Pool,
    pub ops: Vec<Op>,
    rank: (usize, u64, usize, usize),
}

/// Bases in the order in which a reader would like to see them.
fn candidates(size: u64) -> Vec<Pool> {
    let order = [3, 0, 1, 2, 4, 7, 6, 5];
    let all = pools(size..=size);
    order.iter().map(|i| all[*i]).collect()
}

/// Operations from the plainest on: no alignment, no address, small sizes first.
fn plain(pool: Pool) -> Vec<Op> {
    let mut ops = requests(pool, &[1, 2]);
    ops.extend(frees(pool));
    ops.sort_by_key(|op| match op {
        Op::Allocate { size, align, policy } => (*align, matches!(policy, Policy::Exact(_)) as u8 * 2, *size),
        Op::Free { .. } => (1, 1, 0),
    });
    ops
}

fn keep<K: Ord>(best: &mut BTreeMap<K, Found>, key: K, found: Found) {
    match best.get(&key) {
        Some(old) if old.rank <= found.rank => {}
        _ => drop(best.insert(key, found)),
    }
}

/// For each class the shortest sequence that shows it: up to the departure, and where the answer to that is right, up to
/// the first answer that is not.
pub fn of_classes(up_to: u64) -> BTreeMap<Class, Found> {
    let mut best = BTreeMap::new();
    for size in 1..=up_to {
        for (b, pool) in candidates(size).into_iter().enumerate() {
            let clear = Clear::of(pool);
            let ops = plain(pool);
            for (i, state) in clear.states.iter().enumerate() {
                let tiles = state.tiles();
                for (o, op) in ops.iter().enumerate() {
                    let right = state.answer(op);
                    let Some(class) = departs(state, &tiles, op, right) else { continue };
                    let mut way = clear.path(i);
                    way.push(*op);
                    let (got, left) = account::answer(&tiles, op);
                    if got == right {
                        let (left, after) = (left.unwrap_or(tiles.clone()), state.next(op, right));
                        match ops.iter().find(|next| account::answer(&left, next).0 != after.answer(next)) {
                            Some(next) => way.push(*next),
                            None => continue,
                        }
                    }
                    let rank = (way.len(), size, b, o);
                    keep(&mut best, class, Found { pool, ops: way, rank });
                }
            }
        }
    }
    best
}

/// The Rust after some operations: its nodes, and what its caller holds by the answers.
#[derive(Clone, PartialEq, Eq, Hash)]
struct Told {
    nodes: Vec<Tile>,
    held: State,
}

/// Ranges that may overlap, as ranges that do not.
fn joined(state: &State) -> State {
    let mut all = state.clone();
    all.granted.sort();
    let mut apart: Vec<(u64, u64)> = Vec::new();
    for &(start, end) in &all.granted {
        match apart.last_mut() {
            Some(r) if start <= r.1 => r.1 = r.1.max(end),
            _ => apart.push((start, end)),
        }
    }
    State { granted: apart, ..all }
}

impl Told {
    fn harmed(&self) -> bool {
        self.nodes != self.held.tiles()
    }

    fn step(&self, op: &Op) -> (Answer, Told) {
        let (got, nodes) = account::answer(&self.nodes, op);
        let mut after = Told { nodes: nodes.unwrap_or_else(|| self.nodes.clone()), held: self.held.clone() };
        match (op, got) {
            (_, Answer::Granted(..)) => after.held = self.held.next(op, got),
            // Whatever is answered, who gives a range back holds it no longer.
            (Op::Free { start, end }, _) => after.held.granted.retain(|r| *r != (*start, *end)),
            _ => {}
        }
        (got, after)
    }

    /// What is wrong with an answer, if anything is, by what the caller holds.
    fn wrong(&self, op: &Op, got: Answer) -> Option<&'static str> {
        let right = self.held.answer(op);
        if let Answer::Granted(start, end) = got {
            if start < self.held.base || self.held.end < end {
                return Some("granted outside the pool");
            }
            if self.held.granted.iter().any(|r| r.0 <= end && start <= r.1) {
                return Some("granted over a range that is held");
            }
        }
        match (got, right) {
            _ if got == right => None,
            (Answer::Granted(..), Answer::Granted(..)) => Some("granted, but not at the lowest or highest place"),
            (Answer::Refused(_), Answer::Granted(..)) => Some("refused, though it fits"),
            (Answer::Refused(_), Answer::Done) => Some("the free of a range that is held is refused"),
            (Answer::Done, _) => Some("the free of what is not held is done"),
            (Answer::Refused(_), Answer::Refused(_)) => Some("refused for another reason"),
            (Answer::Granted(..), _) => Some("granted, though it does not fit"),
        }
    }
}

/// What follows: one departure that leaves the Rust with other nodes than its answers tell, and after it
/// operations that are no departures by what the caller holds.
pub fn of_consequences(up_to: u64, further: usize) -> BTreeMap<(Class, &'static str), Found> {
    let mut best = BTreeMap::new();
    for size in 1..=up_to {
        for (b, pool) in candidates(size).into_iter().enumerate() {
            let clear = Clear::of(pool);
            let ops = plain(pool);
            let mut layer: Vec<(Class, Told, Vec<Op>)> = Vec::new();
            let mut known: HashSet<(Class, Told)> = HashSet::new();
            for (i, state) in clear.states.iter().enumerate() {
                let here = Told { nodes: state.tiles(), held: state.clone() };
                for op in &ops {
                    let Some(class) = departs(state, &here.nodes, op, state.answer(op)) else { continue };
                    let after = here.step(op).1;
                    if after.harmed() && known.insert((class, after.clone())) {
                        let mut way = clear.path(i);
                        way.push(*op);
                        layer.push((class, after, way));
                    }
                }
            }
            for _ in 0..further {
                let mut next = Vec::new();
                for (class, told, way) in layer {
                    let apart = joined(&told.held);
                    let tiles = apart.tiles();
                    for (o, op) in ops.iter().enumerate() {
                        if departs(&apart, &tiles, op, apart.answer(op)).is_some() {
                            continue;
                        }
                        let (got, after) = told.step(op);
                        let mut ops = way.clone();
                        ops.push(*op);
                        if let Some(wrong) = told.wrong(op, got) {
                            let rank = (ops.len(), size, b, o);
                            keep(&mut best, (class, wrong), Found { pool, ops: ops.clone(), rank });
                        }
                        if after.harmed() && known.insert((class, after.clone())) {
                            next.push((class, after, ops));
                        }
                    }
                }
                layer = next;
            }
        }
    }
    best
}
