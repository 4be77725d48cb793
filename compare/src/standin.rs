//! Stand-ins for the library with a known fault each, to see that the comparisons notice it.
//!
//! Fault 0 is none. A run that does not tell the others from the definition would be no test.
use crate::definition::{improper, is_range};
use crate::ids::{self, Ids};
use crate::port::{Port, PortIds};
use crate::words::{Answer, IdAnswer, IdOp, Op, Policy, Reason, Tile, M};

pub const FAULTS: [&str; 10] = [
    "none",
    "first stops at the first free range that is long enough before rounding up",
    "last rounds the start down below the free range's own start",
    "a free melts only with the free range below",
    "a free melts only with the free range above",
    "what fits at the end of the pool is refused by exact",
    "a refusal changes the memory",
    "one range more than the limit is kept",
    "the last free range is called the largest",
    "of each free range but the first one address is not counted",
];

#[derive(Clone, PartialEq)]
pub struct StandIn {
    fault: usize,
    tiles: Vec<Tile>,
    limit: usize,
    touched: u64,
}

impl StandIn {
    pub fn new(fault: usize, base: u64, size: u64, limit: usize) -> Result<StandIn, Reason> {
        let state = crate::definition::make(base, size)?;
        Ok(StandIn { fault, tiles: state.tiles(), limit, touched: 0 })
    }

    fn place(&self, size: u64, align: u64, policy: Policy) -> Result<(usize, u128), Reason> {
        let (size, align) = (size as u128, align as u128);
        let low = |t: &Tile| (t.start as u128).div_ceil(align) * align;
        let high = |t: &Tile| (t.end as u128 + 1 - size) / align * align;
        let long = |t: &Tile| t.free && (t.end - t.start) as u128 + 1 >= size;
        let fits = |t: &Tile, at: u128| t.free && t.start as u128 <= at && at + size <= t.end as u128 + 1;
        let tiles = self.tiles.iter().enumerate();
        let found = match policy {
            Policy::First if self.fault == 1 => tiles.filter(|t| long(t.1)).map(|t| (t.0, low(t.1))).next(),
            Policy::First => tiles.map(|t| (t.0, low(t.1))).find(|p| fits(&self.tiles[p.0], p.1)),
            Policy::Last if self.fault == 2 => tiles.rev().filter(|t| long(t.1)).map(|t| (t.0, high(t.1))).next(),
            Policy::Last => {
                tiles.rev().filter(|t| long(t.1)).map(|t| (t.0, high(t.1))).find(|p| fits(&self.tiles[p.0], p.1))
            }
            Policy::Exact(at) => tiles.map(|t| (t.0, at as u128)).find(|p| fits(&self.tiles[p.0], p.1)),
        };
        let end = self.tiles[self.tiles.len() - 1].end as u128;
        match (found, policy) {
            (Some(p), Policy::Exact(_)) if self.fault == 5 && p.1 + size == end + 1 => Err(Reason::ResourceNotAvailable),
            (Some(p), _) if self.fault == 2 || fits(&self.tiles[p.0], p.1) => Ok(p),
            (None, Policy::Exact(at)) if at as u128 + size - 1 > M as u128 => {
                let free = self.tiles.iter().any(|t| t.free && t.start <= at && at <= t.end);
                Err(if free { Reason::Overflow } else { Reason::ResourceNotAvailable })
            }
            _ => Err(Reason::ResourceNotAvailable),
        }
    }

    fn allocate(&mut self, size: u64, align: u64, policy: Policy) -> Result<Answer, Reason> {
        if let Some(reason) = improper(size, align, policy) {
            return Err(reason);
        }
        let (i, at) = self.place(size, align, policy)?;
        let (t, start, end) = (self.tiles[i], at as u64, (at + size as u128 - 1) as u64);
        let mut cut = Vec::new();
        if t.start < start {
            cut.push(Tile { start: t.start, end: start - 1, free: true });
        }
        cut.push(Tile { start, end, free: false });
        if end < t.end {
            cut.push(Tile { start: end + 1, end: t.end, free: true });
        }
        if self.tiles.len() + cut.len() - 1 > self.limit + (self.fault == 7) as usize {
            return Err(Reason::NoRoom);
        }
        self.tiles.splice(i..=i, cut);
        Ok(Answer::Granted(start, end))
    }

    fn free(&mut self, start: u64, end: u64) -> Result<Answer, Reason> {
        if !is_range(start, end) {
            return Err(Reason::InvalidRange);
        }
        let granted = Tile { start, end, free: false };
        let i = self.tiles.iter().position(|t| *t == granted).ok_or(Reason::ResourceNotAvailable)?;
        self.tiles[i].free = true;
        if self.fault != 3 && self.tiles.get(i + 1).is_some_and(|t| t.free) {
            self.tiles[i].end = self.tiles.remove(i + 1).end;
        }
        if self.fault != 4 && i > 0 && self.tiles[i - 1].free {
            self.tiles[i - 1].end = self.tiles.remove(i).end;
        }
        Ok(Answer::Done)
    }
}

impl Port for StandIn {
    fn run(&mut self, op: &Op) -> Answer {
        let answer = match *op {
            Op::Allocate { size, align, policy } => self.allocate(size, align, policy),
            Op::Free { start, end } => self.free(start, end),
        };
        answer.unwrap_or_else(|reason| {
            self.touched += (self.fault == 6) as u64;
            Answer::Refused(reason)
        })
    }

    fn tiles(&self, _: u64, _: u64) -> Vec<Tile> {
        self.tiles.clone()
    }

    fn left(&self) -> Option<(u64, u64)> {
        let sizes: Vec<u64> = self.tiles.iter().filter(|t| t.free).map(|t| t.end - t.start + 1).collect();
        let missed = if self.fault == 9 { sizes.len().saturating_sub(1) as u64 } else { 0 };
        let largest = if self.fault == 8 { sizes.last() } else { sizes.iter().max() };
        Some((sizes.iter().sum::<u64>() - missed, largest.copied().unwrap_or(0)))
    }
}

/// Ids: fault 1 grants the highest freed id, fault 2 takes back the id that would be granted next, fault 3 knows
/// nothing of the highest id, fault 4 counts only the ids that were never granted.
#[derive(Clone, PartialEq)]
pub struct StandInIds {
    fault: usize,
    ids: Ids,
}

impl StandInIds {
    pub fn new(fault: usize, lowest: u32, highest: u32) -> Result<StandInIds, Reason> {
        ids::make(lowest, highest).map(|ids| StandInIds { fault, ids })
    }
}

impl PortIds for StandInIds {
    fn run(&mut self, op: IdOp) -> IdAnswer {
        let mut answer = self.ids.answer(op);
        let freed = self.ids.ever.iter().rev().find(|e| !*e.1).map(|e| *e.0);
        match (op, freed) {
            (IdOp::Allocate, Some(id)) if self.fault == 1 => answer = IdAnswer::Id(id),
            (IdOp::Free(id), _) if self.fault == 2 && self.ids.answer(IdOp::Allocate) == IdAnswer::Id(id) => {
                answer = IdAnswer::Id(id);
            }
            _ => {}
        }
        self.ids.apply(op, answer);
        answer
    }

    fn is_allocated(&self, id: u32) -> bool {
        self.ids.is_granted(id) && (self.fault != 3 || id != self.ids.highest)
    }

    fn free_count(&self) -> u64 {
        let never_granted = u64::from(self.ids.highest - self.ids.lowest) + 1 - self.ids.ever.len() as u64;
        if self.fault == 4 {
            never_granted
        } else {
            self.ids.free_count()
        }
    }
}
