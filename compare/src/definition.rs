//! The definition of an address allocator, written down once more and settled by looking at every address.
//!
//! A state is a pool and the ranges that are granted now. An address is free if it is in the pool and in
//! no granted range. A range fits at an address that is a multiple of the alignment and from which on all
//! its addresses are free. Numbers are 128 bits wide here, so that no sum wraps. `gaps` answers the same
//! without looking at every address, for large pools; the exhaustive runs compare the two.
use crate::words::{Answer, Op, Policy, Reason, Tile, M};

#[derive(Clone, PartialEq, Eq, Hash, Debug)]
pub struct State {
    pub base: u64,
    pub end: u64,
    /// In order of their addresses.
    pub granted: Vec<(u64, u64)>,
}

/// What is made of a base and a size.
pub fn make(base: u64, size: u64) -> Result<State, Reason> {
    if size == 0 {
        return Err(Reason::Underflow);
    }
    match base.checked_add(size - 1) {
        None => Err(Reason::Overflow),
        Some(end) => Ok(State { base, end, granted: Vec::new() }),
    }
}

/// Why a request is refused before the pool is looked at.
pub fn improper(size: u64, align: u64, policy: Policy) -> Option<Reason> {
    if size == 0 {
        return Some(Reason::InvalidSize);
    }
    if !align.is_power_of_two() {
        return Some(Reason::InvalidAlignment);
    }
    match policy {
        Policy::Exact(at) if at % align != 0 => Some(Reason::UnalignedAddress),
        _ => None,
    }
}

/// Whether a pair of addresses is a range.
pub fn is_range(start: u64, end: u64) -> bool {
    start <= end && !(start == 0 && end == M)
}

impl State {
    pub fn is_free(&self, address: u128) -> bool {
        self.base as u128 <= address
            && address <= self.end as u128
            && self.granted.iter().all(|r| address < r.0 as u128 || (r.1 as u128) < address)
    }

    fn fits(&self, size: u64, align: u64, at: u64) -> bool {
        at % align == 0 && (at as u128..at as u128 + size as u128).all(|x| self.is_free(x))
    }

    /// The answer to an operation, with no limit on the number of ranges.
    pub fn answer(&self, op: &Op) -> Answer {
        match *op {
            Op::Allocate { size, align, policy } => {
                if let Some(reason) = improper(size, align, policy) {
                    return Answer::Refused(reason);
                }
                let place = match policy {
                    Policy::First => (self.base..=self.end).find(|a| self.fits(size, align, *a)),
                    Policy::Last => (self.base..=self.end).rev().find(|a| self.fits(size, align, *a)),
                    Policy::Exact(at) => Some(at).filter(|a| self.fits(size, align, *a)),
                };
                match (place, policy) {
                    (Some(at), _) => Answer::Granted(at, at + (size - 1)),
                    (None, Policy::Exact(at)) => self.no_place_at(at, size),
                    (None, _) => Answer::Refused(Reason::ResourceNotAvailable),
                }
            }
            Op::Free { start, end } => self.answer_free(start, end),
        }
    }

    /// An exact request that does not fit: its end beyond the highest address is told apart if the address is free.
    pub fn no_place_at(&self, at: u64, size: u64) -> Answer {
        if self.is_free(at as u128) && at as u128 + size as u128 - 1 > M as u128 {
            return Answer::Refused(Reason::Overflow);
        }
        Answer::Refused(Reason::ResourceNotAvailable)
    }

    pub fn answer_free(&self, start: u64, end: u64) -> Answer {
        if !is_range(start, end) {
            return Answer::Refused(Reason::InvalidRange);
        }
        match self.granted.contains(&(start, end)) {
            true => Answer::Done,
            false => Answer::Refused(Reason::ResourceNotAvailable),
        }
    }

    /// The state changes by an answer.
    pub fn apply(&mut self, op: &Op, answer: Answer) {
        match (op, answer) {
            (_, Answer::Granted(start, end)) => {
                let at = self.granted.iter().filter(|r| r.0 < start).count();
                self.granted.insert(at, (start, end));
            }
            (Op::Free { start, end }, Answer::Done) => self.granted.retain(|r| *r != (*start, *end)),
            _ => {}
        }
    }

    /// The state after an answer.
    pub fn next(&self, op: &Op, answer: Answer) -> State {
        let mut after = self.clone();
        after.apply(op, answer);
        after
    }

    /// The granted ranges and the free ones between them, in order: no two free ones touch.
    pub fn tiles(&self) -> Vec<Tile> {
        let mut tiles = Vec::with_capacity(2 * self.granted.len() + 1);
        let mut from = self.base as u128;
        for &(start, end) in &self.granted {
            if from < start as u128 {
                tiles.push(Tile { start: from as u64, end: start - 1, free: true });
            }
            tiles.push(Tile { start, end, free: false });
            from = end as u128 + 1;
        }
        if from <= self.end as u128 {
            tiles.push(Tile { start: from as u64, end: self.end, free: true });
        }
        tiles
    }

    /// How many addresses are free, and the greatest size that fits somewhere.
    pub fn left(&self) -> (u64, u64) {
        let free = (self.base..=self.end).filter(|a| self.is_free(*a as u128)).count() as u64;
        let fits = |size: &u64| (self.base..=self.end).any(|a| self.fits(*size, 1, a));
        (free, (1..=free).rev().find(fits).unwrap_or(0))
    }

    /// The answer where at most `limit` ranges, free and granted together, may be kept.
    pub fn within(&self, limit: usize, op: &Op, answer: Answer) -> Answer {
        match answer {
            Answer::Granted(..) if self.next(op, answer).tiles().len() > limit => Answer::Refused(Reason::NoRoom),
            _ => answer,
        }
    }
}
