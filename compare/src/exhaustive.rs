//! Every operation from every state of small pools: the library against the definition, and the Rust against it.
use crate::cases::{downwards, every_state, requests, upwards, Pool};
use crate::gaps;
use crate::port::{Make, Port};
use crate::tally::{line, Tally};
use crate::words::{Answer, Op};

fn pool_text(pool: Pool) -> String {
    format!("pool {:#x} size {:#x}", pool.base, pool.size)
}

/// The library with the given operations in every state of the pool whose ranges are within the limit. Where two
/// ways are asked for, each state is reached upwards and downwards: the answers must not depend on the way.
pub fn port<P: Port>(make: Make<P>, pool: Pool, limit: usize, ops: &[Op], two_ways: bool) -> Tally {
    let mut tally = Tally::default();
    for state in every_state(pool) {
        let tiles = state.tiles();
        if tiles.len() > limit {
            continue;
        }
        tally.count("states", 1);
        // Downwards everything is granted on the way: only where the limit is no hindrance.
        let both = two_ways && limit >= pool.size as usize;
        let ways = if both { vec![upwards(&state), downwards(&state)] } else { vec![upwards(&state)] };
        for way in ways {
            let mut start = make(pool.base, pool.size, limit).unwrap_or_else(|r| panic!("{}: {r:?}", pool_text(pool)));
            for op in &way {
                start.run(op);
            }
            let reached = start.tiles(pool.base, pool.end()) == tiles;
            tally.check(reached, || line(&format!("{}: not reached", pool_text(pool)), &way));
            let (left, counted) = (start.left(), state.left());
            tally.check(left == Some(counted), || {
                line(&pool_text(pool), &way) + &format!(": {left:?} is left, by the definition {counted:?}")
            });
            let mut now = start.clone();
            for op in ops {
                let right = state.within(limit, op, state.answer(op));
                let got = now.run(op);
                tally.check(got == right, || {
                    line(&pool_text(pool), &way) + &format!("; {op}: {got}, by the definition {right}")
                });
                if let Answer::Refused(_) = right {
                    let same = now == start;
                    tally.check(same, || line(&pool_text(pool), &way) + &format!("; {op}: refused, but the memory changed"));
                    if !same {
                        now.clone_from(&start);
                    }
                } else {
                    let next = state.next(op, right);
                    let (seen, after) = (now.tiles(pool.base, pool.end()), next.tiles());
                    tally.check(seen == after && now.left() == Some(gaps::left(&next)), || {
                        line(&pool_text(pool), &way) + &format!("; {op}: left {seen:?}, by the definition {after:?}")
                    });
                    now.clone_from(&start);
                }
            }
        }
    }
    tally
}

/// The definition's two forms, address by address and free range by free range, in every state of the pool.
pub fn definitions(pool: Pool) -> Tally {
    let mut tally = Tally::default();
    let ops = requests(pool, &[1, 2, 4, 8, 1 << 63]);
    for state in every_state(pool) {
        tally.count("states", 1);
        let (by_address, by_gap) = (state.left(), gaps::left(&state));
        tally.check(by_address == by_gap, || {
            line(&pool_text(pool), &upwards(&state)) + &format!(": {by_address:?} and {by_gap:?} is left")
        });
        for op in &ops {
            let (by_address, by_gap) = (state.answer(op), gaps::answer(&state, op));
            tally.check(by_address == by_gap, || {
                line(&pool_text(pool), &upwards(&state)) + &format!("; {op}: {by_address} and {by_gap}")
            });
        }
    }
    tally
}

#[cfg(oracle)]
pub mod beside {
    use super::*;
    use crate::account;
    use crate::cases::Clear;
    use crate::definition::State;
    use crate::departs::{departs, CLASSES};
    use crate::oracle::Rust;
    use crate::words::{Tile, M};

    fn top_granted(state: &State) -> bool {
        state.granted.last().is_some_and(|r| r.1 == M)
    }

    /// What the caller of the Rust holds by its answer; who gives a range back holds it no longer.
    pub fn held_after(state: &State, op: &Op, got: Answer) -> State {
        match (op, got) {
            (Op::Free { .. }, _) => state.next(op, Answer::Done),
            _ => state.next(op, got),
        }
    }

    /// The Rust in every state of the pool that it reaches without a departure, with the given operations.
    pub fn rust(pool: Pool, ops: &[Op]) -> Tally {
        let mut tally = Tally::default();
        let clear = Clear::of(pool);
        // Only states with M granted have no clear way to them, and none of those has one.
        let states = every_state(pool);
        let barred = states.iter().filter(|s| top_granted(s)).count();
        tally.check(clear.states.len() + barred == states.len(), || format!("{}: {barred} barred", pool_text(pool)));
        tally.count("states", clear.states.len() as u64);
        tally.count("states with no clear way to them, since M is granted", barred as u64);
        for (i, state) in clear.states.iter().enumerate() {
            let way = clear.path(i);
            let mut start = Rust::new(pool.base, pool.size).expect("a pool");
            for op in &way {
                start.run(op);
            }
            let tiles = state.tiles();
            let reached = start.tiles() == tiles && start.ends() == (pool.base, pool.end());
            tally.check(reached, || line(&format!("{}: not reached", pool_text(pool)), &way));
            tally.check(!top_granted(state), || line(&format!("{}: grants M", pool_text(pool)), &way));
            if reached {
                each(&mut tally, state, &tiles, &start, ops, |op| line(&pool_text(pool), &way) + &format!("; {op}"));
            }
        }
        tally
    }

    /// One state: the answers, what is left, the condition both ways, and the account of the Rust.
    fn each(tally: &mut Tally, state: &State, tiles: &[Tile], start: &Rust, ops: &[Op], say: impl Fn(&Op) -> String) {
        let (mut alike, mut departed) = (0, [0; CLASSES.len()]);
        let mut now = start.clone();
        for op in ops {
            let right = state.answer(op);
            let got = now.run(op);
            let class = departs(state, tiles, op, right);
            let untouched = now == *start;
            let (told, told_tiles) = account::answer(tiles, op);
            match class {
                None if untouched => {
                    let agrees = got == right && matches!(right, Answer::Refused(_)) && told == got && told_tiles.is_none();
                    tally.check(agrees, || say(op) + &format!(": {got}, by the definition {right}, by the account {told}"));
                }
                _ => {
                    let left = now.tiles();
                    let agrees = got == right && left == state.next(op, right).tiles();
                    tally.check(agrees == class.is_none(), || {
                        say(op) + &format!(": {got}, left {left:?}; by the definition {right}; class {class:?}")
                    });
                    let expected = told_tiles.as_deref().unwrap_or(tiles);
                    tally.check(told == got && left == expected, || {
                        say(op) + &format!(": {got}, left {left:?}; by the account {told}, {expected:?}")
                    });
                    if let Some(class) = class {
                        let harmed = left != held_after(state, op, got).tiles();
                        tally.check(harmed == class.harms(), || {
                            say(op) + &format!(": {got}, left {left:?}; harmed {harmed}")
                        });
                    }
                    now.clone_from(start);
                }
            }
            match class {
                None => alike += 1,
                Some(class) => departed[class as usize] += 1,
            }
        }
        tally.count("operations on which the condition says, and the run sees, no departure", alike);
        for class in CLASSES {
            tally.count(&format!("departures, {}", class.name()), departed[class as usize]);
        }
    }
}
