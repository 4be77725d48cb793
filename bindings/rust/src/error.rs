//! Why something is refused.

use core::fmt;

use crate::native::reason;
use crate::RangeInclusive;

/// Why an operation was refused. After a refusal the allocator is as it was.
///
/// The variants up to `InvalidSize` are vm-allocator's, in its order; two of them never arise here. The last three are the library's own:
/// a `match` that names every variant needs an arm for them.
#[derive(Copy, Clone, PartialEq, Eq, PartialOrd, Ord, Debug)]
pub enum Error {
    /// An end would lie beyond 2^64 - 1, or no id follows 2^32 - 1.
    Overflow,
    /// Not an id of the interval.
    OutOfRange(u32),
    /// The id was granted once, and is not granted now.
    AlreadyReleased(u32),
    /// The id was never granted.
    NeverAllocated(u32),
    /// There is no place, no id is left, or the range is not granted.
    ResourceNotAvailable,
    /// The end lies before the start, or the range is all of the 64-bit addresses.
    InvalidRange(u64, u64),
    /// The alignment is no power of two.
    InvalidAlignment,
    /// Never given: no operation makes two ranges overlap.
    Overlap(RangeInclusive, RangeInclusive),
    /// Never given: no operation changes what a range is into something that it cannot be.
    InvalidStateTransition(RangeInclusive, NodeState),
    /// The address asked for is no multiple of the alignment.
    UnalignedAddress,
    /// A pool of no address.
    Underflow,
    /// A range of no address.
    InvalidSize(u64),
    /// The table is full, the limit is not 1 to 4,096, or there is no memory for the block.
    NoRoom,
    /// A number that stands for no policy. This crate hands over none.
    InvalidPolicy,
    /// The lent block holds no allocator. The blocks of this crate hold one.
    NoState,
}

/// What [`Error::InvalidStateTransition`] says of a range.
#[derive(Copy, Clone, PartialEq, Eq, PartialOrd, Ord, Debug)]
pub enum NodeState {
    /// The range is free.
    Free,
    /// The range is granted.
    Allocated,
}

/// A result of this crate.
pub type Result<T> = core::result::Result<T, Error>;

/// What was asked for: the reasons are numbers, and some variants name what they refuse.
#[derive(Copy, Clone, Default)]
pub(crate) struct Asked {
    pub id: u32,
    pub range: (u64, u64),
    pub size: u64,
}

impl Asked {
    pub(crate) fn id(id: u32) -> Self {
        Asked { id, ..Asked::default() }
    }

    pub(crate) fn range(start: u64, end: u64) -> Self {
        Asked { range: (start, end), ..Asked::default() }
    }

    pub(crate) fn size(size: u64) -> Self {
        Asked { size, ..Asked::default() }
    }
}

/// `Ok` for the reason 0, and for any other the error that it stands for.
pub(crate) fn done(number: u32, asked: Asked) -> Result<()> {
    Err(match number {
        reason::DONE => return Ok(()),
        reason::OVERFLOW => Error::Overflow,
        reason::OUT_OF_RANGE => Error::OutOfRange(asked.id),
        reason::ALREADY_RELEASED => Error::AlreadyReleased(asked.id),
        reason::NEVER_ALLOCATED => Error::NeverAllocated(asked.id),
        reason::RESOURCE_NOT_AVAILABLE => Error::ResourceNotAvailable,
        reason::INVALID_RANGE => Error::InvalidRange(asked.range.0, asked.range.1),
        reason::INVALID_ALIGNMENT => Error::InvalidAlignment,
        reason::UNALIGNED_ADDRESS => Error::UnalignedAddress,
        reason::UNDERFLOW => Error::Underflow,
        reason::INVALID_SIZE => Error::InvalidSize(asked.size),
        reason::NO_ROOM => Error::NoRoom,
        reason::INVALID_POLICY => Error::InvalidPolicy,
        reason::NO_STATE => Error::NoState,
        // The library's contracts leave no other number.
        _ => Error::NoState,
    })
}

impl fmt::Display for Error {
    fn fmt(&self, f: &mut fmt::Formatter<'_>) -> fmt::Result {
        match self {
            Error::Overflow => f.write_str("the end would lie beyond the highest number"),
            Error::OutOfRange(id) => write!(f, "{id} is no id of the interval"),
            Error::AlreadyReleased(id) => write!(f, "the id {id} is not granted any more"),
            Error::NeverAllocated(id) => write!(f, "the id {id} was never granted"),
            Error::ResourceNotAvailable => f.write_str("not available"),
            Error::InvalidRange(start, end) => write!(f, "{start:#x} to {end:#x} is no range"),
            Error::InvalidAlignment => f.write_str("the alignment is no power of two"),
            Error::Overlap(a, b) => write!(f, "{a:?} and {b:?} overlap"),
            Error::InvalidStateTransition(range, state) => write!(f, "{range:?} is {state:?} and cannot become that"),
            Error::UnalignedAddress => f.write_str("the address is no multiple of the alignment"),
            Error::Underflow => f.write_str("a pool of no address"),
            Error::InvalidSize(size) => write!(f, "{size} is no size of a range"),
            Error::NoRoom => f.write_str("no room for one more range, or for the allocator"),
            Error::InvalidPolicy => f.write_str("no policy has this number"),
            Error::NoState => f.write_str("the memory holds no allocator"),
        }
    }
}

impl core::error::Error for Error {}
