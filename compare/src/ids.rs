//! The definition of an id allocator, written down once more.
//!
//! A state is an interval and, for each id that was ever granted, whether it is granted now.
use crate::words::{IdAnswer, IdOp, Reason};
use std::collections::BTreeMap;

#[derive(Clone, PartialEq, Eq, PartialOrd, Ord, Debug)]
pub struct Ids {
    pub lowest: u32,
    pub highest: u32,
    /// Of each id that was ever granted: is it now?
    pub ever: BTreeMap<u32, bool>,
}

pub fn make(lowest: u32, highest: u32) -> Result<Ids, Reason> {
    match lowest <= highest {
        true => Ok(Ids { lowest, highest, ever: BTreeMap::new() }),
        false => Err(Reason::InvalidRange),
    }
}

impl Ids {
    pub fn is_granted(&self, id: u32) -> bool {
        self.ever.get(&id) == Some(&true)
    }

    /// How many ids of the interval are not granted now.
    pub fn free_count(&self) -> u64 {
        let granted = self.ever.values().filter(|now| **now).count() as u64;
        u64::from(self.highest - self.lowest) + 1 - granted
    }

    pub fn answer(&self, op: IdOp) -> IdAnswer {
        match op {
            IdOp::Allocate => {
                let freed = self.ever.iter().find(|e| !*e.1).map(|e| *e.0);
                let new = || (self.lowest..=self.highest).find(|id| !self.ever.contains_key(id));
                match freed.or_else(new) {
                    Some(id) => IdAnswer::Id(id),
                    None if self.highest == u32::MAX => IdAnswer::Refused(Reason::Overflow),
                    None => IdAnswer::Refused(Reason::ResourceNotAvailable),
                }
            }
            IdOp::Free(id) if id < self.lowest || self.highest < id => IdAnswer::Refused(Reason::OutOfRange),
            IdOp::Free(id) => match self.ever.get(&id) {
                None => IdAnswer::Refused(Reason::NeverAllocated),
                Some(false) => IdAnswer::Refused(Reason::AlreadyReleased),
                Some(true) => IdAnswer::Id(id),
            },
        }
    }

    pub fn apply(&mut self, op: IdOp, answer: IdAnswer) {
        if let IdAnswer::Id(id) = answer {
            self.ever.insert(id, op == IdOp::Allocate);
        }
    }

    /// What the documentation promises beside: an allocation answers the lowest id that is not in use.
    pub fn lowest_unused(&self) -> Option<u32> {
        (self.lowest..=self.highest).find(|id| !self.is_granted(*id))
    }
}
