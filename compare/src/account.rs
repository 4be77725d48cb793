//! What the Rust does, departures and all, told on a row of tiles in order of their addresses.
//!
//! The row need not cover the pool (what is lost is in no tile), and free tiles may touch. The runs compare
//! it with the Rust in every state that any operations reach on small pools, so that what the Rust grants
//! after a departure, and where, is known and not guessed. It is no part of the definition.
use crate::definition::{improper, is_range};
use crate::words::{Answer, Op, Policy, Reason, Tile, M};

const NOT_AVAILABLE: Answer = Answer::Refused(Reason::ResourceNotAvailable);
const OVERFLOW: Answer = Answer::Refused(Reason::Overflow);

/// The answer, and the tiles afterwards if they change.
pub fn answer(tiles: &[Tile], op: &Op) -> (Answer, Option<Vec<Tile>>) {
    match *op {
        Op::Allocate { size, align, policy } => allocate(tiles, size, align, policy),
        Op::Free { start, end } => free(tiles, start, end),
    }
}

fn allocate(tiles: &[Tile], size: u64, align: u64, policy: Policy) -> (Answer, Option<Vec<Tile>>) {
    if let Some(reason) = improper(size, align, policy) {
        return (Answer::Refused(reason), None);
    }
    // With no tile left at all, an exact request is not even looked at.
    if tiles.is_empty() {
        return (NOT_AVAILABLE, None);
    }
    let (size, align) = (size as u128, align as u128);
    let low = |t: &Tile| (t.start as u128).div_ceil(align) * align;
    let first = |t: &Tile| t.free && low(t) + size <= t.end as u128 + 1;
    // A tile of just the size from 0 on is passed over.
    let high = |t: &Tile| (t.end as u128 + 1).checked_sub(size).map(|a| a / align * align);
    let last = |t: &Tile| t.free && t.end as u128 >= size && high(t).is_some_and(|a| a >= t.start as u128);
    let found = match policy {
        Policy::First => tiles.iter().position(first).map(|i| (i, low(&tiles[i]))),
        Policy::Last => tiles.iter().rposition(last).map(|i| (i, high(&tiles[i]).unwrap())),
        Policy::Exact(M) => return (OVERFLOW, None),
        Policy::Exact(at) => {
            let Some(i) = tiles.iter().position(|t| t.start <= at && at < t.end) else {
                return (NOT_AVAILABLE, None);
            };
            if at as u128 + size - 1 > M as u128 {
                return (OVERFLOW, None);
            }
            Some((i, at as u128)).filter(|p| p.1 + size - 1 <= tiles[i].end as u128)
        }
    };
    let Some((i, at)) = found else {
        return (NOT_AVAILABLE, None);
    };
    if at + size > M as u128 {
        return (OVERFLOW, None);
    }
    let (t, start, end) = (tiles[i], at as u64, (at + size - 1) as u64);
    if t.start == start && t.end == end && !t.free {
        return (Answer::Refused(Reason::StateTransition), None);
    }
    // The tile is cut in up to three, and what is left of it is free, whatever it was.
    let mut after = tiles[..i].to_vec();
    if t.start < start {
        after.push(Tile { start: t.start, end: start - 1, free: true });
    }
    after.push(Tile { start, end, free: false });
    if end < t.end {
        after.push(Tile { start: end + 1, end: t.end, free: true });
    }
    after.extend_from_slice(&tiles[i + 1..]);
    (Answer::Granted(start, end), Some(after))
}

fn free(tiles: &[Tile], start: u64, end: u64) -> (Answer, Option<Vec<Tile>>) {
    if !is_range(start, end) {
        return (Answer::Refused(Reason::InvalidRange), None);
    }
    // With no tile left at all, every pair is taken for one that was there.
    let there = tiles.iter().any(|t| t.start == start && t.end == end);
    if !there && !tiles.is_empty() {
        return (NOT_AVAILABLE, None);
    }
    let mut after = tiles.to_vec();
    after.retain(|t| t.start != start || t.end != end);
    if start == 1 {
        return (Answer::Refused(Reason::Underflow), Some(after));
    }
    if end == M - 1 {
        return (OVERFLOW, Some(after));
    }
    let mut whole = Tile { start, end, free: true };
    // Only a free neighbour of two addresses or more melts.
    if let Some(i) = after.iter().position(|t| t.free && start > 0 && t.end == start - 1 && t.start < t.end) {
        whole.start = after.remove(i).start;
    }
    if let Some(i) = after.iter().position(|t| t.free && end < M && t.start == end + 1 && t.start < t.end) {
        whole.end = after.remove(i).end;
    }
    let at = after.iter().filter(|t| t.start < start).count();
    after.insert(at, whole);
    (Answer::Done, Some(after))
}
