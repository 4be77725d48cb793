//! Ids: every operation from every state of small intervals, and long random sequences on large ones.
use crate::ids::{make, Ids};
use crate::port::{MakeIds, PortIds};
use crate::random::{shrink, Dice};
use crate::tally::{line, Tally};
use crate::words::{IdAnswer, IdOp};
use std::collections::{BTreeMap, VecDeque};

/// Intervals of one to five ids at 0, in the middle and up to 2^32 - 1.
pub fn small() -> Vec<(u32, u32)> {
    let mut all = Vec::new();
    for n in 1..=5 {
        all.extend([(0, n - 1), (1, n), (5, n + 4), (0x8000_0000 - 2, 0x8000_0000 - 3 + n)]);
        all.extend([(u32::MAX - n, u32::MAX - 1), (u32::MAX - n + 1, u32::MAX)]);
    }
    all
}

/// Large intervals, of which only the Rust is asked for the last.
pub fn large() -> Vec<(u32, u32)> {
    vec![
        (0, 63),
        (5, 23),
        (1, 4160),
        (0x8000_0000 - 100, 0x8000_0000 + 900),
        (u32::MAX - 300, u32::MAX - 1),
        (u32::MAX - 129, u32::MAX),
        (0, 999_999),
        (0, u32::MAX),
    ]
}

/// The states of an interval, each with a shortest way to it.
fn states(lowest: u32, highest: u32) -> Vec<(Ids, Vec<IdOp>)> {
    let start = make(lowest, highest).expect("an interval");
    let mut known = BTreeMap::from([(start.clone(), ())]);
    let mut all = Vec::new();
    let mut waiting = VecDeque::from([(start, Vec::new())]);
    while let Some((state, way)) = waiting.pop_front() {
        for op in std::iter::once(IdOp::Allocate).chain((lowest..=highest).map(IdOp::Free)) {
            let mut after = state.clone();
            after.apply(op, state.answer(op));
            if known.insert(after.clone(), ()).is_none() {
                let mut way = way.clone();
                way.push(op);
                waiting.push_back((after, way));
            }
        }
        all.push((state, way));
    }
    all
}

fn around(lowest: u32, highest: u32) -> Vec<u32> {
    let mut all = vec![0, 1, u32::MAX - 1, u32::MAX];
    all.extend(lowest.saturating_sub(3)..=highest.saturating_add(3));
    all.sort();
    all.dedup();
    all
}

fn operations(lowest: u32, highest: u32) -> Vec<IdOp> {
    std::iter::once(IdOp::Allocate).chain(around(lowest, highest).into_iter().map(IdOp::Free)).collect()
}

fn head(lowest: u32, highest: u32) -> String {
    format!("ids {lowest} to {highest}")
}

/// The first of the ids of which a side says something else than the definition.
fn told_wrong(ids: &[u32], state: &Ids, is_allocated: impl Fn(u32) -> bool) -> Option<u32> {
    ids.iter().copied().find(|id| is_allocated(*id) != state.is_granted(*id))
}

/// The library: answers, that a refusal leaves its memory as it was, and which ids it says are granted after each operation.
pub fn port<P: PortIds>(made: MakeIds<P>, lowest: u32, highest: u32) -> Tally {
    let mut tally = Tally::default();
    for (state, way) in states(lowest, highest) {
        tally.count("states", 1);
        let mut start = made(lowest, highest).unwrap_or_else(|r| panic!("{}: {r:?}", head(lowest, highest)));
        for op in &way {
            start.run(*op);
        }
        for op in operations(lowest, highest) {
            let mut now = start.clone();
            let (got, right) = (now.run(op), state.answer(op));
            let kept = matches!(right, IdAnswer::Id(_)) || now == start;
            tally.check(got == right && kept, || {
                line(&head(lowest, highest), &way)
                    + &format!("; {op}: {got}, by the definition {right}, memory kept: {kept}")
            });
            let mut after = state.clone();
            after.apply(op, right);
            for id in around(lowest, highest) {
                tally.check(now.is_allocated(id) == after.is_granted(id), || {
                    line(&head(lowest, highest), &way) + &format!("; {op}: then is {id} allocated")
                });
            }
            tally.check(now.free_count() == after.free_count(), || {
                line(&head(lowest, highest), &way) + &format!("; {op}: then {} are free", now.free_count())
            });
        }
    }
    tally
}

/// A random sequence, following the definition. It fills the interval, empties it in part, and fills it again.
pub fn sequence(lowest: u32, highest: u32, seed: u64, steps: usize) -> Vec<IdOp> {
    let mut dice = Dice(seed);
    let mut state = make(lowest, highest).expect("an interval");
    let mut ops = Vec::with_capacity(steps);
    for i in 0..steps {
        let granting = if (i / 250) % 2 == 0 { 75 } else { 30 };
        let near = lowest as u64 + dice.below(state.ever.len() as u64 + 3);
        let op = match dice.below(100) {
            n if n < granting => IdOp::Allocate,
            n if n < 97 => IdOp::Free(near.min(u32::MAX as u64) as u32),
            _ => IdOp::Free(dice.pick(&[0, lowest.saturating_sub(1), highest, highest.saturating_add(1), u32::MAX])),
        };
        let answer = state.answer(op);
        state.apply(op, answer);
        ops.push(op);
    }
    ops
}

/// After a step of a long sequence: the id, its neighbours and those a word away, and the ends.
fn near(lowest: u32, highest: u32, answer: IdAnswer, op: IdOp) -> Vec<u32> {
    let id = match (answer, op) {
        (IdAnswer::Id(id), _) | (IdAnswer::Refused(_), IdOp::Free(id)) => id,
        (IdAnswer::Refused(_), IdOp::Allocate) => highest,
    };
    let mut all = vec![0, lowest.saturating_sub(1), lowest, highest, highest.saturating_add(1), u32::MAX, id];
    for away in [1, 63, 64, 65] {
        all.extend([id.saturating_sub(away), id.saturating_add(away)]);
    }
    all
}

fn port_differs<P: PortIds>(made: MakeIds<P>, lowest: u32, highest: u32, ops: &[IdOp]) -> Result<u64, String> {
    let mut state = make(lowest, highest).expect("an interval");
    let mut port = made(lowest, highest).map_err(|r| format!("not made: {r:?}"))?;
    let mut before = port.clone();
    for op in ops {
        let (got, right) = (port.run(*op), state.answer(*op));
        if got != right {
            return Err(format!("{op}: {got}, by the definition {right}"));
        }
        match right {
            IdAnswer::Refused(_) if port != before => return Err(format!("{op}: refused, but the memory changed")),
            IdAnswer::Refused(_) => {}
            IdAnswer::Id(_) => before.clone_from(&port),
        }
        state.apply(*op, right);
        let wrong = told_wrong(&near(lowest, highest, right, *op), &state, |id| port.is_allocated(id));
        if let Some(id) = wrong {
            return Err(format!("{op}: then of {id} it is not told whether it is granted"));
        }
        if highest - lowest < 100_000 && port.free_count() != state.free_count() {
            return Err(format!("{op}: then {} are free, by the definition {}", port.free_count(), state.free_count()));
        }
    }
    let all: Vec<u32> = (lowest..=highest).collect();
    match told_wrong(&all, &state, |id| port.is_allocated(id)) {
        _ if port.free_count() != state.free_count() => Err(format!("in the end {} are free", port.free_count())),
        Some(id) => Err(format!("in the end of {id} it is not told whether it is granted")),
        None => Ok(ops.len() as u64),
    }
}

pub fn random_port<P: PortIds>(made: MakeIds<P>, seed: u64, steps: usize) -> Tally {
    let mut tally = Tally::default();
    for (lowest, highest) in large().into_iter().filter(|i| i.1 - i.0 < 1_000_000) {
        let ops = sequence(lowest, highest, seed, steps);
        tally.count("sequences", 1);
        match port_differs(made, lowest, highest, &ops) {
            Ok(n) => tally.compared += n,
            Err(_) => {
                let least = shrink(&ops, |_| Vec::new(), |ops| port_differs(made, lowest, highest, ops).is_err());
                let why = port_differs(made, lowest, highest, &least).unwrap_err();
                tally.check(false, || line(&format!("--seed {seed}, {}", head(lowest, highest)), &least) + ": " + &why);
            }
        }
    }
    tally
}

#[cfg(oracle)]
pub mod beside {
    use super::*;
    use crate::oracle::RustIds;
    use crate::words::Reason;

    /// What the Rust shows of itself in a state.
    fn shown(state: &Ids) -> String {
        let next = (state.lowest..=u32::MAX).find(|id| !state.ever.contains_key(id));
        let freed: Vec<String> = state.ever.iter().filter(|e| !*e.1).map(|e| e.0.to_string()).collect();
        format!(
            "IdAllocator {{ range_base: {}, next_id: {next:?}, range_end: {}, freed_ids: {{{}}} }}",
            state.lowest,
            state.highest,
            freed.join(", ")
        )
    }

    /// The Rust: answers, what it shows of itself before and after, whether each id is in use, and that a grant is the lowest unused id.
    pub fn rust(lowest: u32, highest: u32) -> Tally {
        let mut tally = Tally::default();
        for (state, way) in states(lowest, highest) {
            tally.count("states", 1);
            let mut start = RustIds::new(lowest, highest).expect("an interval");
            for op in &way {
                start.run(*op);
            }
            let say = |what: String| line(&head(lowest, highest), &way) + "; " + &what;
            for op in operations(lowest, highest) {
                let mut now = start.clone();
                let (got, right) = (now.run(op), state.answer(op));
                let mut after = state.clone();
                after.apply(op, right);
                tally.check(got == right && now.shown() == shown(&after), || {
                    say(format!("{op}: {got}, {}, by the definition {right}, {}", now.shown(), shown(&after)))
                });
                for id in around(lowest, highest) {
                    tally.check(now.is_allocated(id) == after.is_granted(id), || {
                        say(format!("{op}: then is {id} allocated"))
                    });
                }
                if let (IdOp::Allocate, IdAnswer::Id(id)) = (op, right) {
                    tally.check(state.lowest_unused() == Some(id), || say(format!("{op}: {id} is not the lowest unused")));
                }
            }
            for id in around(lowest, highest) {
                tally.check(start.is_allocated(id) == state.is_granted(id), || say(format!("is {id} allocated")));
            }
        }
        tally
    }

    /// Which intervals are made.
    pub fn made() -> Tally {
        let mut tally = Tally::default();
        let ends = [0, 1, 2, 5, 0x7fff_ffff, 0x8000_0000, u32::MAX - 1, u32::MAX];
        for lowest in ends {
            for highest in ends {
                let (got, right) = (RustIds::new(lowest, highest).err(), make(lowest, highest).err());
                tally.check(got == right, || format!("{}: {got:?}, {right:?}", head(lowest, highest)));
                tally.check(right.is_none() || right == Some(Reason::InvalidRange), || head(lowest, highest));
            }
        }
        tally
    }

    pub fn random_rust(seed: u64, steps: usize) -> Tally {
        let mut tally = Tally::default();
        for (lowest, highest) in large() {
            let ops = sequence(lowest, highest, seed, steps);
            tally.count("sequences", 1);
            tally.compared += ops.len() as u64;
            let differs = |ops: &[IdOp]| {
                let mut state = make(lowest, highest).expect("an interval");
                let mut rust = RustIds::new(lowest, highest).expect("an interval");
                ops.iter().find_map(|op| {
                    let (got, right) = (rust.run(*op), state.answer(*op));
                    state.apply(*op, right);
                    let wrong = told_wrong(&near(lowest, highest, right, *op), &state, |id| rust.is_allocated(id));
                    match wrong {
                        _ if got != right => Some(format!("{op}: {got}, by the definition {right}")),
                        Some(id) => Some(format!("{op}: then of {id} it is not told whether it is granted")),
                        None => None,
                    }
                })
            };
            if differs(&ops).is_some() {
                let least = shrink(&ops, |_| Vec::new(), |ops| differs(ops).is_some());
                let head = format!("--seed {seed}, {}", head(lowest, highest));
                tally.check(false, || line(&head, &least) + ": " + &differs(&least).unwrap());
            }
        }
        tally
    }
}
