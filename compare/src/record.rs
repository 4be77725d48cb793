//! Recorded answers: a fixed list of sequences with what the Rust answers, and what is right where that differs.
use crate::cases::Pool;
use crate::definition::{self, State};
use crate::departs::departs;
use crate::gaps;
use crate::idruns;
use crate::ids;
use crate::oracle::{Rust, RustIds};
use crate::random;
use crate::shortest;
use crate::words::{reason_text, Op, Policy, Reason, M};
use std::fmt::{Display, Write};

fn answered(text: &mut String, asked: impl Display, rust: impl Display, right: impl Display) {
    let (rust, right) = (rust.to_string(), right.to_string());
    match rust == right {
        true => writeln!(text, "{asked} = {rust}"),
        false => writeln!(text, "{asked} = {rust} ! {right}"),
    }
    .unwrap();
}

fn told(reason: Option<&Reason>) -> &'static str {
    reason.map_or("done", |r| reason_text(*r))
}

fn address_sequence(text: &mut String, name: &str, pool: Pool, ops: &[Op]) {
    writeln!(text, "\nsequence {name}").unwrap();
    let asked = format!("pool {:#x} size {:#x}", pool.base, pool.size);
    let (made, right) = (Rust::new(pool.base, pool.size), definition::make(pool.base, pool.size));
    answered(text, asked, told(made.as_ref().err()), told(right.as_ref().err()));
    let (Ok(mut rust), Ok(mut state)) = (made, right) else { return };
    for op in ops {
        let right = gaps::answer(&state, op);
        answered(text, op, rust.run(op), right);
        state = state.next(op, right);
    }
}

fn allocate(size: u64, align: u64, policy: Policy) -> Op {
    Op::Allocate { size, align, policy }
}

fn free(start: u64, end: u64) -> Op {
    Op::Free { start, end }
}

const HEAD: &str = "\
# What vm-allocator 0.1.4 answers, operation by operation. Made by `compare/run --record`, not by hand.
# ASKED = ANSWER: the Rust's answer, and ours. ASKED = ANSWER ! RIGHT: the Rust's answer, and ours where it differs.
";

/// Sequences without a departure.
pub fn agreed() -> String {
    let mut text = HEAD.to_string();
    for (base, size) in [(0, 0), (M, 2), (1, M), (2, M), (M, 1), (0, M), (0x1000, 0)] {
        address_sequence(&mut text, "of one pool that is made or not", Pool { base, size }, &[]);
    }
    use Policy::{Exact, First, Last};
    let run = [
        allocate(0x800, 0x100, First),
        allocate(0x400, 0x1000, First),
        allocate(0x400, 0x100, Last),
        allocate(0x100, 0x100, Exact(0x1800)),
        allocate(0x100, 0x100, Exact(0x1850)),
        free(0x1000, 0x17fe),
        free(0x1000, 0x17ff),
        free(0x1800, 0x18ff),
        free(0x2000, 0x23ff),
        free(0x10c00, 0x10fff),
        allocate(0x10000, 0x1000, First),
    ];
    address_sequence(&mut text, "of a pool from 0x1000 on", Pool { base: 0x1000, size: 0x10000 }, &run);
    for (i, pool) in random::pools().into_iter().enumerate() {
        let mut ops = Vec::new();
        let mut state: State = pool.empty();
        for op in random::sequence(pool, usize::MAX, 1000 + i as u64, 100) {
            let right = gaps::answer(&state, &op);
            if departs(&state, &state.tiles(), &op, right).is_none() {
                state = state.next(&op, right);
                ops.push(op);
            }
        }
        address_sequence(&mut text, &format!("random {i}"), pool, &ops);
    }
    text
}

/// The rows of the table of known departures that can be run: the number of the row, the pool, the operations. The last
/// operations of some rows look at what is left.
pub fn rows() -> Vec<(u32, Pool, Vec<Op>)> {
    use Policy::{Exact, First, Last};
    let low = Pool { base: 0, size: 0x1000 };
    let top = Pool { base: M - 0xfff, size: 0x1000 };
    let small = Pool { base: 0x10, size: 0x10 };
    vec![
        (
            1,
            low,
            vec![
                allocate(0x1000, 1, First),
                allocate(0x10, 1, Exact(0x100)),
                allocate(0x10, 1, First),
                allocate(0x10, 1, Last),
            ],
        ),
        (2, low, vec![allocate(0x1000, 1, First), allocate(0x1000, 1, Exact(0))]),
        (3, low, vec![allocate(0x1000, 1, Last)]),
        (
            4,
            Pool { base: 1, size: 0x1000 },
            vec![allocate(0x10, 1, First), free(1, 0x10), free(1, 0x10), allocate(0x10, 1, Exact(1))],
        ),
        (5, top, vec![allocate(0x10, 1, Exact(M - 0x10)), free(M - 0x10, M - 1), allocate(0x10, 1, Exact(M - 0x10))]),
        (
            6,
            small,
            vec![
                allocate(1, 1, Exact(0x10)),
                allocate(4, 1, Exact(0x11)),
                free(0x10, 0x10),
                free(0x11, 0x14),
                allocate(0x10, 1, First),
            ],
        ),
        (7, small, vec![allocate(1, 1, Exact(0x1f))]),
        (8, top, vec![allocate(0x10, 1, Last)]),
        (8, top, vec![allocate(0x1000, 1, First)]),
        (8, top, vec![allocate(0x10, 1, Exact(M - 0xf))]),
        (9, low, vec![allocate(1, 1, Exact(M))]),
        (10, small, vec![free(0x10, 0x1f)]),
    ]
}

/// The rows of the table, the shortest sequence for each class, and for each thing that follows from one.
pub fn differences() -> String {
    let mut text = HEAD.to_string();
    for (row, pool, ops) in rows() {
        address_sequence(&mut text, &format!("row {row}"), pool, &ops);
    }
    for (class, found) in shortest::of_classes(4) {
        address_sequence(&mut text, &format!("class {}", class.name()), found.pool, &found.ops);
    }
    for ((class, what), found) in shortest::of_consequences(4, 3) {
        address_sequence(&mut text, &format!("after {}: {what}", class.name()), found.pool, &found.ops);
    }
    text
}

/// Ids: the run of the documentation, both ends, and random sequences.
pub fn of_ids() -> String {
    use crate::words::IdOp::{Allocate, Free};
    let mut text = HEAD.to_string();
    let mut run = vec![Allocate; 9];
    run.extend([Free(10), Free(10), Free(9), Allocate, Free(21), Free(14), Free(3)]);
    run.extend([Allocate; 12]);
    let mut sequences = vec![
        ("of ids 5 to 23".to_string(), (5, 23), run),
        ("of the last two ids".to_string(), (u32::MAX - 1, u32::MAX), vec![Allocate; 4]),
        ("of a reversed interval".to_string(), (2, 1), Vec::new()),
    ];
    for (i, (lowest, highest)) in idruns::small().into_iter().chain(idruns::large()).enumerate() {
        if highest - lowest > 1_000_000 {
            continue;
        }
        let steps = if highest - lowest < 5 { 20 } else { 150 };
        sequences.push((
            format!("random {i}"),
            (lowest, highest),
            idruns::sequence(lowest, highest, 2000 + i as u64, steps),
        ));
    }
    for (name, (lowest, highest), ops) in sequences {
        writeln!(text, "\nsequence {name}").unwrap();
        let asked = format!("ids {lowest} to {highest}");
        let (made, right) = (RustIds::new(lowest, highest), ids::make(lowest, highest));
        answered(&mut text, asked, told(made.as_ref().err()), told(right.as_ref().err()));
        let (Ok(mut rust), Ok(mut state)) = (made, right) else { continue };
        for op in ops {
            let right = state.answer(op);
            answered(&mut text, op, rust.run(op), right);
            state.apply(op, right);
        }
    }
    text
}
