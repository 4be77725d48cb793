//! What is wrong with bytes that are no saved allocator.

use core::fmt;

use crate::native::reason;

/// What is wrong with bytes that are no saved allocator.
#[derive(Clone, Copy, Debug, Eq, PartialEq)]
#[non_exhaustive]
pub enum Flaw {
    /// They end too early.
    Short,
    /// They are of another kind.
    Kind,
    /// They are of another version.
    Version,
    /// A check is not that of what stands before it.
    Check,
    /// There is no such pool or interval, or the next new id does not belong to it.
    Bounds,
    /// The limit is above 4,096.
    Limit,
    /// There is no range, there are more than the limit, or half a range.
    Count,
    /// A range is neither free nor granted.
    State,
    /// A range does not start where it is to; a freed id is not above the one before, or is below the lowest.
    Order,
    /// A range lies past the pool's last address; a freed id is not below the next new one.
    Outside,
    /// Two free ranges touch.
    Touching,
    /// Nothing is: there was no memory to read them into.
    NoMemory,
}

/// Why bytes were not read: what is wrong with them, and the place of the byte at which it stands.
#[derive(Clone, Copy, Debug, Eq, PartialEq)]
pub struct Unreadable {
    /// What is wrong.
    pub flaw: Flaw,
    /// Where.
    pub place: usize,
}

impl fmt::Display for Unreadable {
    fn fmt(&self, f: &mut fmt::Formatter<'_>) -> fmt::Result {
        let what = match self.flaw {
            Flaw::Short => "they end too early",
            Flaw::Kind => "another kind",
            Flaw::Version => "another version",
            Flaw::Check => "a check is wrong",
            Flaw::Bounds => "no such pool or interval",
            Flaw::Limit => "no such limit",
            Flaw::Count => "no such number of ranges",
            Flaw::State => "neither free nor granted",
            Flaw::Order => "out of order",
            Flaw::Outside => "outside the pool or the ids that were granted",
            Flaw::Touching => "two free ranges touch",
            Flaw::NoMemory => "there is no memory to read them into",
        };
        write!(f, "not a saved allocator: {}, at byte {}", what, self.place)
    }
}

impl core::error::Error for Unreadable {}

/// What the library answers to a load, as a result: how many bytes were read, or what is wrong.
pub(crate) fn read(number: u32, at: usize) -> core::result::Result<usize, Unreadable> {
    let flaw = match number {
        reason::DONE => return Ok(at),
        101 => Flaw::Short,
        102 => Flaw::Kind,
        103 => Flaw::Version,
        104 => Flaw::Check,
        105 => Flaw::Bounds,
        106 => Flaw::Limit,
        107 => Flaw::Count,
        108 => Flaw::State,
        109 => Flaw::Order,
        110 => Flaw::Outside,
        111 => Flaw::Touching,
        _ => Flaw::NoMemory,
    };
    Err(Unreadable { flaw, place: at })
}
