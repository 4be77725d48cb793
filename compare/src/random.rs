//! Long random sequences on large pools, and the smallest sequence that still fails where one does.
use crate::cases::Pool;
use crate::definition::State;
use crate::gaps;
use crate::port::{Make, Port};
use crate::tally::{line, Tally};
use crate::words::{Answer, Op, Policy, M};

/// A generator of numbers from a seed: splitmix64.
pub struct Dice(pub u64);

impl Dice {
    pub fn roll(&mut self) -> u64 {
        self.0 = self.0.wrapping_add(0x9e37_79b9_7f4a_7c15);
        let mut z = self.0;
        z = (z ^ (z >> 30)).wrapping_mul(0xbf58_476d_1ce4_e5b9);
        z = (z ^ (z >> 27)).wrapping_mul(0x94d0_49bb_1331_11eb);
        z ^ (z >> 31)
    }

    pub fn below(&mut self, n: u64) -> u64 {
        self.roll() % n
    }

    pub fn pick<T: Copy>(&mut self, of: &[T]) -> T {
        of[self.below(of.len() as u64) as usize]
    }
}

/// Pools near 0, in the middle and near M.
pub fn pools() -> Vec<Pool> {
    let mut pools = Vec::new();
    for size in [0x60, 0x1000, 0x1_0000, 1 << 40] {
        for base in [0, 1, 2, 0x1000, (1 << 63) - 0x40, M - size - 1, M - size, M - size + 1] {
            pools.push(Pool { base, size });
        }
    }
    pools
}

/// Sizes, alignments and places that are multiples of 16, so that no free range of one address arises.
fn tame(dice: &mut Dice, state: &State) -> Op {
    if dice.below(100) < 40 && !state.granted.is_empty() {
        let r = dice.pick(&state.granted);
        return Op::Free { start: r.0, end: r.1 };
    }
    let policy = match dice.below(3) {
        0 => Policy::First,
        1 => Policy::Last,
        _ => Policy::Exact((state.base + dice.below(state.end - state.base + 1)) & !15),
    };
    Op::Allocate { size: 16 * (1 + dice.below(12)), align: 16 << dice.below(3), policy }
}

/// An operation that a state makes likely to matter. With a coarse grain most sizes are multiples of it.
fn operation(dice: &mut Dice, state: &State, grain: u64) -> Op {
    if grain == TAME {
        return tame(dice, state);
    }
    let what = dice.below(100);
    let near = |dice: &mut Dice, at: u64| at.wrapping_add(dice.below(5)).wrapping_sub(2);
    if what < 38 && !state.granted.is_empty() {
        let r = dice.pick(&state.granted);
        return Op::Free { start: r.0, end: r.1 };
    }
    let tile = match state.granted.is_empty() || dice.below(4) == 0 {
        true => (state.base, state.end),
        false => dice.pick(&state.granted),
    };
    if what < 42 {
        return match dice.below(3) {
            0 => Op::Free { start: near(dice, tile.0), end: near(dice, tile.1) },
            1 => Op::Free { start: tile.1, end: tile.0 },
            _ => Op::Free { start: near(dice, tile.1), end: near(dice, tile.1).wrapping_add(dice.below(40)) },
        };
    }
    let pool = state.end - state.base;
    let size = match dice.below(40) {
        0 => dice.below(pool) + 1,
        1 => dice.below(pool / 8 + 1) + 1,
        2 => M - dice.below(4),
        3 => (M - near(dice, tile.1)).wrapping_add(dice.below(3)),
        4 => dice.below(3),
        _ => (dice.below(16) + 1) * grain,
    };
    let align = match dice.below(40) {
        0 => dice.pick(&[0, 3, 1 << 63, 1 << 40]),
        1..=14 => grain,
        _ => grain << dice.below(5),
    };
    let policy = match dice.below(10) {
        0..=3 => Policy::First,
        4..=6 => Policy::Last,
        _ => {
            let at = match dice.below(4) {
                0 => near(dice, tile.0),
                1 => near(dice, tile.1),
                2 => tile.1.wrapping_add(1 + dice.below(64)),
                _ => state.base + dice.below(pool + 1),
            };
            Policy::Exact(if dice.below(5) > 0 && align.is_power_of_two() { at & !(align - 1) } else { at })
        }
    };
    Op::Allocate { size, align, policy }
}

/// Instead of a grain: a tame sequence.
const TAME: u64 = 16;

/// A sequence, following the definition with a limit.
pub fn sequence(pool: Pool, limit: usize, seed: u64, steps: usize) -> Vec<Op> {
    let mut dice = Dice(seed);
    let grain = dice.pick(&[1, 2, 8, TAME, TAME]);
    let mut state = pool.empty();
    let mut ops = Vec::with_capacity(steps);
    for _ in 0..steps {
        let op = operation(&mut dice, &state, grain);
        let answer = state.within(limit, &op, gaps::answer(&state, &op));
        state.apply(&op, answer);
        ops.push(op);
    }
    ops
}

/// Where the library first differs from the definition in a sequence, if it does.
pub fn port_differs<P: Port>(make: Make<P>, pool: Pool, limit: usize, ops: &[Op]) -> Result<u64, String> {
    let mut state = pool.empty();
    let mut port = make(pool.base, pool.size, limit).map_err(|r| format!("not made: {r:?}"))?;
    let mut before = port.clone();
    for (i, op) in ops.iter().enumerate() {
        let right = state.within(limit, op, gaps::answer(&state, op));
        let got = port.run(op);
        if got != right {
            return Err(format!("{op}: {got}, by the definition {right}"));
        }
        if let Answer::Refused(_) = right {
            if port != before {
                return Err(format!("{op}: refused, but the memory changed"));
            }
        } else {
            state.apply(op, right);
            before.clone_from(&port);
        }
        let (left, right) = (port.left(), gaps::left(&state));
        if left != Some(right) {
            return Err(format!("{op}: {left:?} is left, by the definition {right:?}"));
        }
        if i % 64 == 0 && port.tiles(pool.base, pool.end()) != state.tiles() {
            return Err(format!("{op}: other ranges than by the definition"));
        }
    }
    match port.tiles(pool.base, pool.end()) == state.tiles() {
        true => Ok(ops.len() as u64),
        false => Err("other ranges than by the definition at the end".to_string()),
    }
}

/// The sequence without everything that it does not need to fail: stretches first, then single operations, then numbers.
pub fn shrink<T: Clone>(ops: &[T], plainer: impl Fn(&T) -> Vec<T>, fails: impl Fn(&[T]) -> bool) -> Vec<T> {
    let mut ops = ops.to_vec();
    let mut stretch = ops.len().div_ceil(2);
    loop {
        let mut at = 0;
        let before = ops.len();
        while at < ops.len() {
            let mut fewer = ops.clone();
            fewer.drain(at..(at + stretch).min(ops.len()));
            match fails(&fewer) {
                true => ops = fewer,
                false => at += stretch,
            }
        }
        match stretch {
            1 if ops.len() == before => break,
            1 => {}
            _ => stretch = stretch.div_ceil(2),
        }
    }
    for i in 0..ops.len() {
        while let Some(op) = plainer(&ops[i]).into_iter().find(|op| {
            let mut other = ops.clone();
            other[i] = op.clone();
            fails(&other)
        }) {
            ops[i] = op;
        }
    }
    ops
}

/// The same operation with plainer numbers.
pub fn plainer(op: &Op) -> Vec<Op> {
    let mut all = Vec::new();
    if let Op::Allocate { size, align, policy } = *op {
        if size > 1 {
            all.extend([1, size / 2].map(|size| Op::Allocate { size, align, policy }));
        }
        if align > 1 {
            all.extend([1, align / 2].map(|align| Op::Allocate { size, align, policy }));
        }
    }
    all
}

/// Random sequences on every large pool, the library against the definition. Each pool has a seed of its own.
pub fn port<P: Port>(make: Make<P>, seed: u64, limit: usize, steps: usize) -> Tally {
    let mut tally = Tally::default();
    for (i, pool) in pools().into_iter().enumerate() {
        let ops = sequence(pool, limit, 100 * seed + i as u64, steps);
        tally.count("sequences", 1);
        match port_differs(make, pool, limit, &ops) {
            Ok(n) => tally.compared += n,
            Err(_) => {
                let least = shrink(&ops, plainer, |ops| port_differs(make, pool, limit, ops).is_err());
                let why = port_differs(make, pool, limit, &least).unwrap_err();
                let head = format!("--seed {seed}, pool {:#x} size {:#x}, limit {limit}", pool.base, pool.size);
                tally.check(false, || line(&head, &least) + ": " + &why);
            }
        }
    }
    tally
}

#[cfg(oracle)]
pub mod beside {
    use super::*;
    use crate::account;
    use crate::departs::departs;
    use crate::oracle::Rust;

    /// Where the Rust first differs from the definition in a sequence, operations that depart left out (each is
    /// tried on a copy, and must depart as the account says). At the end everything is given back, as far as that
    /// goes without a departure, and the whole pool asked for.
    pub fn rust_differs(pool: Pool, ops: &[Op], tally: &mut Tally) -> Result<(), String> {
        let mut state = pool.empty();
        let mut rust = Rust::new(pool.base, pool.size).map_err(|r| format!("not made: {r:?}"))?;
        let mut step = |state: &mut State, op: &Op, look: bool| -> Result<bool, String> {
            let right = gaps::answer(state, op);
            let tiles = state.tiles();
            if let Some(class) = departs(state, &tiles, op, right) {
                let mut copy = rust.clone();
                let got = copy.run(op);
                let left = copy.tiles();
                if got == right && left == state.next(op, right).tiles() {
                    return Err(format!("{op}: {got}, no departure, though of class {}", class.name()));
                }
                let (told, told_tiles) = account::answer(&tiles, op);
                if got != told || left != told_tiles.unwrap_or(tiles) {
                    return Err(format!("{op}: {got}, by the account {told}"));
                }
                return Ok(false);
            }
            let got = rust.run(op);
            if got != right {
                return Err(format!("{op}: {got}, by the definition {right}"));
            }
            state.apply(op, right);
            match look && rust.tiles() != state.tiles() {
                true => Err(format!("{op}: other ranges than by the definition")),
                false => Ok(true),
            }
        };
        for (i, op) in ops.iter().enumerate() {
            let same = step(&mut state, op, i % 64 == 0)?;
            tally.count(if same { "operations alike" } else { "departures tried on a copy" }, 1);
        }
        let mut gave = true;
        while gave {
            gave = false;
            for r in state.granted.clone() {
                gave |= step(&mut state, &Op::Free { start: r.0, end: r.1 }, false)?;
            }
        }
        if state.granted.is_empty() {
            let whole = Op::Allocate { size: pool.size, align: 1, policy: Policy::First };
            let same = step(&mut state, &whole, true)?;
            tally.count(
                if same { "pools whole at the end" } else { "pools free at the end, but not grantable as a whole" },
                1,
            );
        } else {
            tally.count("pools not freed at the end, since each free would depart", 1);
        }
        Ok(())
    }

    /// Where the Rust first differs from the account in a sequence, with nothing left out.
    pub fn account_differs(pool: Pool, ops: &[Op]) -> Result<(), String> {
        let mut rust = Rust::new(pool.base, pool.size).map_err(|r| format!("not made: {r:?}"))?;
        let mut tiles = pool.empty().tiles();
        for (i, op) in ops.iter().enumerate() {
            let got = rust.run(op);
            let (told, after) = account::answer(&tiles, op);
            tiles = after.unwrap_or(tiles);
            if got != told || (i % 64 == 0 && rust.tiles() != tiles) {
                return Err(format!("{op}: {got}, by the account {told}"));
            }
        }
        Ok(())
    }

    /// Random sequences on every large pool, the Rust against the definition, and against the account.
    pub fn rust(seed: u64, steps: usize) -> Tally {
        let mut tally = Tally::default();
        for (i, pool) in pools().into_iter().enumerate() {
            let ops = sequence(pool, usize::MAX, 100 * seed + i as u64, steps);
            let head = format!("--seed {seed}, pool {:#x} size {:#x}", pool.base, pool.size);
            tally.count("sequences", 1);
            tally.compared += ops.len() as u64;
            if rust_differs(pool, &ops, &mut tally).is_err() {
                let fails = |ops: &[Op]| rust_differs(pool, ops, &mut Tally::default()).err();
                let least = shrink(&ops, plainer, |ops| fails(ops).is_some());
                tally.check(false, || line(&head, &least) + ": " + &fails(&least).unwrap());
            }
            tally.count("operations against the account, nothing left out", ops.len() as u64);
            if account_differs(pool, &ops).is_err() {
                let least = shrink(&ops, plainer, |ops| account_differs(pool, ops).is_err());
                tally.check(false, || line(&head, &least) + ": " + &account_differs(pool, &least).unwrap_err());
            }
        }
        tally
    }
}
