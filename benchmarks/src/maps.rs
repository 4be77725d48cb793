//! What one would write oneself: an address allocator of two BTreeMaps, and an id allocator of two BTreeSets.
use crate::definition::{improper, is_range};
use crate::words::{Answer, IdAnswer, IdOp, Op, Policy, Reason, Tile};
use std::collections::{BTreeMap, BTreeSet};

/// The free and the granted ranges of a pool, each by its first address, with its last.
pub struct Maps {
    free: BTreeMap<u64, u64>,
    granted: BTreeMap<u64, u64>,
    /// Whether a range that is given back melts with the free one above it. False is a fault that must be noticed.
    melts_above: bool,
}

fn lowest(free: (u64, u64), size: u64, align: u64) -> Option<u64> {
    let at = free.0.checked_add(align - 1)? & !(align - 1);
    (at <= free.1 && size - 1 <= free.1 - at).then_some(at)
}

fn highest(free: (u64, u64), size: u64, align: u64) -> Option<u64> {
    let at = free.1.checked_sub(size - 1)? & !(align - 1);
    (free.0 <= at).then_some(at)
}

impl Maps {
    pub fn new(base: u64, size: u64, melts_above: bool) -> Maps {
        Maps { free: BTreeMap::from([(base, base + (size - 1))]), granted: BTreeMap::new(), melts_above }
    }

    pub fn count(&self) -> usize {
        self.free.len() + self.granted.len()
    }

    /// Where a request would be granted, and the first address of the free range that it is cut from.
    fn place(&self, size: u64, align: u64, policy: Policy) -> Result<(u64, u64), Reason> {
        if let Some(reason) = improper(size, align, policy) {
            return Err(reason);
        }
        let ranges = self.free.iter().map(|(start, end)| (*start, *end));
        let place = match policy {
            Policy::First => ranges.into_iter().find_map(|r| Some((lowest(r, size, align)?, r.0))),
            Policy::Last => ranges.rev().find_map(|r| Some((highest(r, size, align)?, r.0))),
            Policy::Exact(at) => match self.free.range(..=at).next_back() {
                Some((_, end)) if at <= *end && at.checked_add(size - 1).is_none() => return Err(Reason::Overflow),
                Some((start, end)) if at <= *end && size - 1 <= *end - at => Some((at, *start)),
                _ => None,
            },
        };
        place.ok_or(Reason::ResourceNotAvailable)
    }

    /// The answer to a request, which changes nothing yet.
    pub fn would_answer(&self, op: &Op) -> Option<Answer> {
        match *op {
            Op::Free { .. } => None,
            Op::Allocate { size, align, policy } => Some(match self.place(size, align, policy) {
                Ok((at, _)) => Answer::Granted(at, at + (size - 1)),
                Err(reason) => Answer::Refused(reason),
            }),
        }
    }

    pub fn run(&mut self, op: &Op) -> Answer {
        match *op {
            Op::Allocate { size, align, policy } => match self.place(size, align, policy) {
                Err(reason) => Answer::Refused(reason),
                Ok((at, start)) => {
                    let last = at + (size - 1);
                    let end = self.free[&start];
                    if start < at {
                        self.free.insert(start, at - 1);
                    } else {
                        self.free.remove(&start);
                    }
                    if last < end {
                        self.free.insert(last + 1, end);
                    }
                    self.granted.insert(at, last);
                    Answer::Granted(at, last)
                }
            },
            Op::Free { start, end } => {
                if !is_range(start, end) {
                    return Answer::Refused(Reason::InvalidRange);
                }
                if self.granted.get(&start) != Some(&end) {
                    return Answer::Refused(Reason::ResourceNotAvailable);
                }
                self.granted.remove(&start);
                let (mut first, mut last) = (start, end);
                if let Some((below, below_end)) = self.free.range(..start).next_back() {
                    if *below_end + 1 == start {
                        first = *below;
                    }
                }
                if self.melts_above {
                    if let Some(above_end) = end.checked_add(1).and_then(|above| self.free.remove(&above)) {
                        last = above_end;
                    }
                }
                self.free.insert(first, last);
                Answer::Done
            }
        }
    }

    /// The range that an address lies in.
    fn tile(&self, address: u64) -> Option<Tile> {
        let of = |ranges: &BTreeMap<u64, u64>, free| {
            let (start, end) = ranges.range(..=address).next_back()?;
            (address <= *end).then_some(Tile { start: *start, end: *end, free })
        };
        of(&self.free, true).or_else(|| of(&self.granted, false))
    }

    /// The range that an address lies in, and the ones beside it.
    pub fn around(&self, address: u64) -> Vec<Tile> {
        let Some(tile) = self.tile(address) else { return Vec::new() };
        let below = tile.start.checked_sub(1).and_then(|a| self.tile(a));
        let above = tile.end.checked_add(1).and_then(|a| self.tile(a));
        [below, Some(tile), above].into_iter().flatten().collect()
    }

    /// The first free range that begins at the address or above it, or else the lowest of all.
    pub fn free_from(&self, address: u64) -> Option<(u64, u64)> {
        self.free.range(address..).next().or_else(|| self.free.iter().next()).map(|(start, end)| (*start, *end))
    }
}

/// The ids that were given back and those that are granted, and the id that comes next if none was given back.
pub struct Sets {
    free: BTreeSet<u32>,
    granted: BTreeSet<u32>,
    lowest: u32,
    highest: u32,
    next: Option<u32>,
}

impl Sets {
    pub fn new(lowest: u32, highest: u32) -> Sets {
        Sets { free: BTreeSet::new(), granted: BTreeSet::new(), lowest, highest, next: Some(lowest) }
    }

    pub fn granted(&self) -> usize {
        self.granted.len()
    }

    pub fn is_granted(&self, id: u32) -> bool {
        self.granted.contains(&id)
    }

    pub fn run(&mut self, op: IdOp) -> IdAnswer {
        match op {
            IdOp::Allocate => {
                let fresh = self.next.filter(|id| *id <= self.highest);
                let Some(id) = self.free.pop_first().or(fresh) else {
                    return IdAnswer::Refused(match self.next {
                        None => Reason::Overflow,
                        Some(_) => Reason::ResourceNotAvailable,
                    });
                };
                if Some(id) == self.next {
                    self.next = id.checked_add(1);
                }
                self.granted.insert(id);
                IdAnswer::Id(id)
            }
            IdOp::Free(id) if id < self.lowest || self.highest < id => IdAnswer::Refused(Reason::OutOfRange),
            IdOp::Free(id) if self.granted.remove(&id) => {
                self.free.insert(id);
                IdAnswer::Id(id)
            }
            IdOp::Free(id) if self.free.contains(&id) => IdAnswer::Refused(Reason::AlreadyReleased),
            IdOp::Free(_) => IdAnswer::Refused(Reason::NeverAllocated),
        }
    }
}
