//! The Rust crate vm-allocator 0.1.4, unchanged, behind this driver's words.
use crate::words::{Answer, IdAnswer, IdOp, Op, Policy, Reason, Tile};
use std::fmt::Write;
use vm_allocator::{AddressAllocator, AllocPolicy, Error, IdAllocator, RangeInclusive};

/// The kind of an error.
fn kind(error: Error) -> Reason {
    match error {
        Error::Overflow => Reason::Overflow,
        Error::OutOfRange(_) => Reason::OutOfRange,
        Error::AlreadyReleased(_) => Reason::AlreadyReleased,
        Error::NeverAllocated(_) => Reason::NeverAllocated,
        Error::ResourceNotAvailable => Reason::ResourceNotAvailable,
        Error::InvalidRange(..) => Reason::InvalidRange,
        Error::InvalidAlignment => Reason::InvalidAlignment,
        Error::Overlap(..) => Reason::Overlap,
        Error::InvalidStateTransition(..) => Reason::StateTransition,
        Error::UnalignedAddress => Reason::UnalignedAddress,
        Error::Underflow => Reason::Underflow,
        Error::InvalidSize(_) => Reason::InvalidSize,
    }
}

/// The numbers that an error carries are the caller's own: that is why a reason without them loses nothing.
fn of_op(error: Error, op: &Op) -> Answer {
    let named = match (error, op) {
        (Error::InvalidRange(a, b), Op::Free { start, end }) => (a, b) == (*start, *end),
        (Error::InvalidSize(n), Op::Allocate { size, .. }) => n == *size,
        (Error::InvalidRange(..) | Error::InvalidSize(_), _) => false,
        _ => true,
    };
    Answer::Refused(if named { kind(error) } else { Reason::Strange })
}

#[derive(Clone, PartialEq)]
pub struct Rust(AddressAllocator);

impl Rust {
    pub fn new(base: u64, size: u64) -> Result<Rust, Reason> {
        AddressAllocator::new(base, size).map(Rust).map_err(kind)
    }

    pub fn run(&mut self, op: &Op) -> Answer {
        match *op {
            Op::Allocate { size, align, policy } => {
                let policy = match policy {
                    Policy::First => AllocPolicy::FirstMatch,
                    Policy::Last => AllocPolicy::LastMatch,
                    Policy::Exact(at) => AllocPolicy::ExactMatch(at),
                };
                match self.0.allocate(size, align, policy) {
                    Ok(range) => Answer::Granted(range.start(), range.end()),
                    Err(error) => of_op(error, op),
                }
            }
            Op::Free { start, end } => match RangeInclusive::new(start, end).and_then(|r| self.0.free(&r)) {
                Ok(()) => Answer::Done,
                Err(error) => of_op(error, op),
            },
        }
    }

    pub fn ends(&self) -> (u64, u64) {
        (self.0.base(), self.0.end())
    }

    /// The nodes of the tree in order of their addresses, from what the allocator prints of itself for `{:?}`.
    pub fn tiles(&self) -> Vec<Tile> {
        let mut text = String::with_capacity(1024);
        write!(text, "{:?}", self.0).unwrap();
        let mut tiles = Vec::new();
        for node in text.split("key: RangeInclusive { start: ").skip(1) {
            let (start, rest) = node.split_once(", end: ").expect("a node's start");
            let (end, rest) = rest.split_once(" }, node_state: ").expect("a node's end");
            let free = rest.starts_with("Free");
            assert!(free || rest.starts_with("Allocated"), "a node's state: {rest}");
            tiles.push(Tile { start: start.parse().unwrap(), end: end.parse().unwrap(), free });
        }
        tiles.sort();
        tiles
    }
}

#[derive(Clone)]
pub struct RustIds(IdAllocator);

impl RustIds {
    pub fn new(lowest: u32, highest: u32) -> Result<RustIds, Reason> {
        IdAllocator::new(lowest, highest).map(RustIds).map_err(|error| match error {
            Error::InvalidRange(a, b) if (a, b) != (lowest as u64, highest as u64) => Reason::Strange,
            _ => kind(error),
        })
    }

    pub fn run(&mut self, op: IdOp) -> IdAnswer {
        let answer = match op {
            IdOp::Allocate => self.0.allocate_id(),
            IdOp::Free(id) => self.0.free_id(id),
        };
        match (answer, op) {
            (Ok(id), _) => IdAnswer::Id(id),
            (Err(e @ (Error::OutOfRange(n) | Error::AlreadyReleased(n) | Error::NeverAllocated(n))), op) => {
                IdAnswer::Refused(if op == IdOp::Free(n) { kind(e) } else { Reason::Strange })
            }
            (Err(e), _) => IdAnswer::Refused(kind(e)),
        }
    }

    pub fn is_allocated(&self, id: u32) -> bool {
        self.0.is_allocated(id)
    }

    /// What the allocator prints of itself: its whole state, in order.
    pub fn shown(&self) -> String {
        format!("{:?}", self.0)
    }
}
