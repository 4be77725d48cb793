//! The precise condition under which the Rust departs from the definition.
//!
//! It is a condition on the definition's state and the operation alone: from a state that the Rust has
//! reached without a departure, the Rust answers otherwise, or is left with other free and granted ranges,
//! **if and only if** `departs` names a class. The exhaustive runs hold it to both directions.
use crate::definition::{improper, is_range, State};
use crate::words::{Answer, Op, Policy, Tile, M};

#[derive(Clone, Copy, PartialEq, Eq, Debug, Hash, PartialOrd, Ord)]
pub enum Class {
    EndsAtTop,
    LastWholeFromZero,
    ExactLastAddress,
    ExactLastAddressBeyond,
    ExactAtTop,
    ExactInGrantedBeyond,
    ExactGrantedAgain,
    ExactInsideGranted,
    FreeFromOne,
    FreeToTopLessOne,
    FreeNotMeltedBelow,
    FreeNotMeltedAbove,
    FreeOfFree,
    FreeOfFreeFromOne,
    FreeOfFreeToTopLessOne,
}

pub const CLASSES: [Class; 15] = [
    Class::EndsAtTop,
    Class::LastWholeFromZero,
    Class::ExactLastAddress,
    Class::ExactLastAddressBeyond,
    Class::ExactAtTop,
    Class::ExactInGrantedBeyond,
    Class::ExactGrantedAgain,
    Class::ExactInsideGranted,
    Class::FreeFromOne,
    Class::FreeToTopLessOne,
    Class::FreeNotMeltedBelow,
    Class::FreeNotMeltedAbove,
    Class::FreeOfFree,
    Class::FreeOfFreeFromOne,
    Class::FreeOfFreeToTopLessOne,
];

impl Class {
    pub fn name(self) -> &'static str {
        match self {
            Class::EndsAtTop => "ends-at-M",
            Class::LastWholeFromZero => "last-whole-from-0",
            Class::ExactLastAddress => "exact-last-address",
            Class::ExactLastAddressBeyond => "exact-last-address-beyond-M",
            Class::ExactAtTop => "exact-at-M",
            Class::ExactInGrantedBeyond => "exact-in-granted-beyond-M",
            Class::ExactGrantedAgain => "exact-granted-again",
            Class::ExactInsideGranted => "exact-inside-granted",
            Class::FreeFromOne => "free-from-1",
            Class::FreeToTopLessOne => "free-to-M-1",
            Class::FreeNotMeltedBelow => "free-not-melted-below",
            Class::FreeNotMeltedAbove => "free-not-melted-above",
            Class::FreeOfFree => "free-of-free",
            Class::FreeOfFreeFromOne => "free-of-free-from-1",
            Class::FreeOfFreeToTopLessOne => "free-of-free-to-M-1",
        }
    }
}

impl Class {
    /// Whether the Rust is left with other nodes than its own answers tell. Where it is not, nothing follows
    /// from the departure but the answer itself: from then on the Rust is right by what it has granted.
    pub fn harms(self) -> bool {
        matches!(
            self,
            Class::ExactInsideGranted
                | Class::FreeFromOne
                | Class::FreeToTopLessOne
                | Class::FreeNotMeltedBelow
                | Class::FreeNotMeltedAbove
                | Class::FreeOfFreeFromOne
                | Class::FreeOfFreeToTopLessOne
        )
    }
}

/// The class of the operation in this state, `right` being the definition's answer; none if the Rust agrees.
pub fn departs(state: &State, tiles: &[Tile], op: &Op, right: Answer) -> Option<Class> {
    match *op {
        Op::Allocate { size, align, policy } => {
            // A request that is refused before the pool is looked at is refused by both alike.
            if improper(size, align, policy).is_some() {
                return None;
            }
            if let Answer::Granted(start, end) = right {
                // The Rust computes one past the end: a range that ends at M is "overflow", by any policy.
                if end == M {
                    return Some(Class::EndsAtTop);
                }
                // Last: the Rust subtracts the size from the free range's last address before it adds one, so
                // a whole free range that begins at 0 is passed over; no other is left, since last chose it.
                if policy == Policy::Last && start == 0 && tiles[0].end == end {
                    return Some(Class::LastWholeFromZero);
                }
            }
            match policy {
                Policy::Exact(at) => exact(state, tiles, at, size, right),
                _ => None,
            }
        }
        Op::Free { start, end } => free(tiles, start, end),
    }
}

/// Exact: the Rust looks for one node that holds the address and the next one, free or granted alike.
fn exact(state: &State, tiles: &[Tile], at: u64, size: u64, right: Answer) -> Option<Class> {
    let beyond = at as u128 + size as u128 - 1 > M as u128;
    if at == M {
        // There is no address after M: always "overflow". That is right if M is free and the size above one.
        return (!state.is_free(M as u128)).then_some(Class::ExactAtTop);
    }
    let tile = tiles.iter().find(|t| t.start <= at && at <= t.end)?;
    match (tile.free, at == tile.end) {
        // The last address of a free range: never found. Wrong where the size is one, which fits ..
        (true, true) if matches!(right, Answer::Granted(..)) => Some(Class::ExactLastAddress),
        // .. and where the end would lie beyond M: "not available", though the address is free.
        (true, true) => beyond.then_some(Class::ExactLastAddressBeyond),
        // Inside a free range, and at the last address of a granted one, the Rust is right.
        (true, false) | (false, true) => None,
        // Inside a granted range with an end beyond M: "overflow", though the address is not free.
        (false, false) if beyond => Some(Class::ExactInGrantedBeyond),
        // A granted range of two addresses or more asked for once more, from its start to its end: an error
        // about a state transition.
        (false, false) if at == tile.start && at + (size - 1) == tile.end => Some(Class::ExactGrantedAgain),
        // A part of a granted range that begins before its last address: granted once more.
        (false, false) if at + (size - 1) <= tile.end => Some(Class::ExactInsideGranted),
        // A range that begins in a granted one and runs out of it is refused by both.
        (false, false) => None,
    }
}

/// Free: the Rust looks up the pair among all nodes, free or granted, takes the node out, and looks two
/// addresses to each side for a neighbour.
fn free(tiles: &[Tile], start: u64, end: u64) -> Option<Class> {
    if !is_range(start, end) {
        return None;
    }
    let i = tiles.iter().position(|t| t.start == start && t.end == end)?;
    let melts = |j: usize| tiles.get(j).is_some_and(|t| t.free);
    let single = |j: usize| tiles[j].start == tiles[j].end;
    match tiles[i].free {
        // Two below 1 is no address: "underflow", after the node was taken out; its addresses are lost.
        false if start == 1 => Some(Class::FreeFromOne),
        // Two above M - 1 is no address: "overflow", and lost likewise.
        false if end == M - 1 => Some(Class::FreeToTopLessOne),
        // A free neighbour of one address holds no two: it is not found, and two free ranges touch.
        false if i > 0 && melts(i - 1) && single(i - 1) => Some(Class::FreeNotMeltedBelow),
        false if melts(i + 1) && single(i + 1) => Some(Class::FreeNotMeltedAbove),
        false => None,
        // What was never granted, but is just one whole free range, is taken out and put back: "done" ..
        // .. unless it begins at 1 or ends at M - 1: then it is lost, as above.
        true if start == 1 => Some(Class::FreeOfFreeFromOne),
        true if end == M - 1 => Some(Class::FreeOfFreeToTopLessOne),
        true => Some(Class::FreeOfFree),
    }
}
