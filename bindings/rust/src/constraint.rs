//! Requests for ranges.

use crate::{Error, Result};

/// An alignment for those who have no other.
pub const DEFAULT_CONSTRAINT_ALIGN: u64 = 4;

/// Which of the places where a range fits is taken.
#[derive(Copy, Clone, Debug, Eq, PartialEq, Default)]
pub enum AllocPolicy {
    /// The lowest.
    #[default]
    FirstMatch,
    /// The highest.
    LastMatch,
    /// The one that starts at this address, which must be a multiple of the alignment.
    ExactMatch(u64),
}

impl AllocPolicy {
    /// The library's number for it, and the address that it names.
    pub(crate) fn number(self) -> (u32, u64) {
        match self {
            AllocPolicy::FirstMatch => (0, 0),
            AllocPolicy::LastMatch => (1, 0),
            AllocPolicy::ExactMatch(address) => (2, address),
        }
    }
}

/// A request that is in order: a size, an alignment and a policy.
///
/// ```
/// use rangekeeper::{AllocPolicy, Constraint, Error, DEFAULT_CONSTRAINT_ALIGN};
///
/// let request = Constraint::new(0x40, DEFAULT_CONSTRAINT_ALIGN, AllocPolicy::FirstMatch)?;
/// assert_eq!((request.size(), request.align()), (0x40, 4));
///
/// assert_eq!(Constraint::new(0x40, 3, AllocPolicy::LastMatch), Err(Error::InvalidAlignment));
/// assert_eq!(Constraint::new(0x40, 8, AllocPolicy::ExactMatch(12)), Err(Error::UnalignedAddress));
/// # Ok::<(), Error>(())
/// ```
#[derive(Copy, Clone, Debug, Eq, PartialEq)]
pub struct Constraint {
    size: u64,
    align: u64,
    policy: AllocPolicy,
}

impl Constraint {
    /// A request. Refused, in this order: size 0 ([`Error::InvalidSize`]); an alignment that is no power of two
    /// ([`Error::InvalidAlignment`]); an exact address that is no multiple of it ([`Error::UnalignedAddress`]).
    pub fn new(size: u64, align: u64, policy: AllocPolicy) -> Result<Self> {
        if size == 0 {
            return Err(Error::InvalidSize(size));
        }
        if !align.is_power_of_two() {
            return Err(Error::InvalidAlignment);
        }
        match policy {
            AllocPolicy::ExactMatch(address) if address & (align - 1) != 0 => Err(Error::UnalignedAddress),
            _ => Ok(Constraint { size, align, policy }),
        }
    }

    /// Its alignment.
    pub fn align(self) -> u64 {
        self.align
    }

    /// How many addresses it asks for.
    pub fn size(self) -> u64 {
        self.size
    }
    /// As the library takes it.
    pub(crate) fn numbers(self) -> crate::native::Request {
        let (policy, address) = self.policy.number();
        (self.size, self.align, policy, address)
    }
}
