//! The definition's answers for pools that are too large to look at every address: free range by free range.
use crate::definition::{improper, State};
use crate::words::{Answer, Op, Policy, Reason};

/// The lowest and the highest multiple of the alignment at which the size fits into the free range, if there is one.
fn places(start: u64, end: u64, size: u64, align: u64) -> Option<(u64, u64)> {
    let (start, end, size, align) = (start as u128, end as u128, size as u128, align as u128);
    if end - start + 1 < size {
        return None;
    }
    let lowest = start.div_ceil(align) * align;
    let highest = (end + 1 - size) / align * align;
    (lowest <= highest).then_some((lowest as u64, highest as u64))
}

pub fn answer(state: &State, op: &Op) -> Answer {
    let Op::Allocate { size, align, policy } = *op else {
        return state.answer(op);
    };
    if let Some(reason) = improper(size, align, policy) {
        return Answer::Refused(reason);
    }
    let tiles = state.tiles();
    let mut free = tiles.iter().filter(|t| t.free);
    let place = match policy {
        Policy::First => free.find_map(|t| places(t.start, t.end, size, align)).map(|p| p.0),
        Policy::Last => free.rev().find_map(|t| places(t.start, t.end, size, align)).map(|p| p.1),
        Policy::Exact(at) => {
            let end = at as u128 + size as u128 - 1;
            match free.any(|t| t.start <= at && end <= t.end as u128) {
                true => Some(at),
                false => return state.no_place_at(at, size),
            }
        }
    };
    place.map_or(Answer::Refused(Reason::ResourceNotAvailable), |at| Answer::Granted(at, at + (size - 1)))
}

/// How many addresses are free, and the size of the largest free range.
pub fn left(state: &State) -> (u64, u64) {
    let granted: u128 = state.granted.iter().map(|r| (r.1 - r.0) as u128 + 1).sum();
    let free = (state.end - state.base) as u128 + 1 - granted;
    let sizes = state.tiles().into_iter().filter(|t| t.free).map(|t| t.end - t.start + 1);
    (free as u64, sizes.max().unwrap_or(0))
}
