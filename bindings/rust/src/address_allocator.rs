//! Ranges of a pool of addresses.

use alloc::vec::Vec;
use core::cmp::Ordering;
use core::fmt;

use crate::error::{done, Asked};
use crate::saved::{read, Unreadable};
use crate::{block, native, word, zeros, AllocPolicy, RangeInclusive, Result};

/// How many ranges, free and granted together, an allocator of [`AddressAllocator::new`] may hold: the most that there can be.
pub const DEFAULT_LIMIT: usize = 4096;

/// Grants ranges of a pool of addresses and takes them back.
///
/// Two allocators are equal if they have the same pool and limit and the same ranges are granted, whatever was done before. They are
/// ordered by the pool's ends, then the limit, then the granted ranges from the lowest on.
///
/// ```
/// use rangekeeper::{AddressAllocator, AllocPolicy, Error, RangeInclusive};
///
/// let mut pool = AddressAllocator::new(0x1000, 0x10000)?;
/// let low = pool.allocate(0x800, 0x100, AllocPolicy::FirstMatch)?;
/// assert_eq!(low, RangeInclusive::new(0x1000, 0x17ff)?);
/// let high = pool.allocate(0x400, 0x100, AllocPolicy::LastMatch)?;
/// assert_eq!(high, RangeInclusive::new(0x10c00, 0x10fff)?);
/// let there = pool.allocate(0x100, 0x100, AllocPolicy::ExactMatch(0x1400));
/// assert_eq!(there, Err(Error::ResourceNotAvailable));
/// pool.free(&low)?;
/// pool.allocate(0x100, 0x100, AllocPolicy::ExactMatch(0x1400))?;
/// # Ok::<(), Error>(())
/// ```
#[derive(Clone)]
pub struct AddressAllocator {
    /// What the library knows; how it lies there is the library's alone.
    block: Vec<u64>,
    limit: usize,
}

impl AddressAllocator {
    /// An allocator of the `size` addresses from `base` on, all of them free, with room for [`DEFAULT_LIMIT`] ranges.
    ///
    /// Refused: size 0 (`Error::Underflow`); a last address beyond 2^64 - 1 (`Error::Overflow`).
    pub fn new(base: u64, size: u64) -> Result<Self> {
        Self::with_limit(base, size, DEFAULT_LIMIT)
    }

    /// The same with room for `limit` ranges, free and granted together. A grant may need two ranges more than there were, a free needs
    /// none. The block takes about six words for each range, and at least 329.
    ///
    /// ```
    /// use rangekeeper::{AddressAllocator, AllocPolicy, Error};
    ///
    /// let mut pool = AddressAllocator::with_limit(0, 0x100, 2)?;
    /// pool.allocate(0x10, 1, AllocPolicy::FirstMatch)?;
    /// // One granted range and a free one; a window in the midst of that would make it four.
    /// assert_eq!(pool.allocate(0x10, 1, AllocPolicy::ExactMatch(0x80)), Err(Error::NoRoom));
    /// # Ok::<(), Error>(())
    /// ```
    ///
    /// Refused as [`new`](Self::new) does, and after that: a limit that is not 1 to 4,096, or no memory for it (`Error::NoRoom`).
    pub fn with_limit(base: u64, size: u64, limit: usize) -> Result<Self> {
        let mut block = block(native::address_words(limit));
        done(native::address_new(&mut block, base, size, limit), Asked::default())?;
        Ok(AddressAllocator { block, limit })
    }

    /// A copy to try things on, with the same ranges granted and room for `limit` ranges, as many as here or more. What is done to one
    /// leaves the other alone.
    ///
    /// ```
    /// use rangekeeper::{AddressAllocator, AllocPolicy, Error};
    ///
    /// let mut pool = AddressAllocator::with_limit(0, 0x100, 2)?;
    /// pool.allocate(0x10, 1, AllocPolicy::FirstMatch)?;
    /// let mut copy = pool.copy_with_limit(4)?;
    /// copy.allocate(0x10, 1, AllocPolicy::ExactMatch(0x80))?;
    /// assert_eq!(pool.allocate(0x10, 1, AllocPolicy::ExactMatch(0x80)), Err(Error::NoRoom));
    /// assert_eq!(pool.copy_with_limit(1), Err(Error::NoRoom));
    /// # Ok::<(), Error>(())
    /// ```
    ///
    /// Refused: a limit below the pool's or above 4,096, or no memory for it (`Error::NoRoom`).
    pub fn copy_with_limit(&self, limit: usize) -> Result<Self> {
        let mut block = block(native::address_words(limit));
        done(native::address_copy(&self.block, &mut block, limit), Asked::default())?;
        Ok(AddressAllocator { block, limit })
    }

    /// The block, to be lent for a call.
    pub(crate) fn lent(&mut self) -> &mut [u64] {
        &mut self.block
    }

    /// Grants `size` addresses that are free, from a multiple of `alignment` on.
    ///
    /// Of any sequence of calls: between two grants that share an address the whole range of the first was given back.
    ///
    /// Refused, in this order: what [`Constraint::new`](crate::Constraint::new) refuses; an exact range whose address is free and whose end
    /// would lie beyond 2^64 - 1 (`Error::Overflow`); no place (`Error::ResourceNotAvailable`); more ranges than the limit
    /// (`Error::NoRoom`).
    pub fn allocate(&mut self, size: u64, alignment: u64, policy: AllocPolicy) -> Result<RangeInclusive> {
        let (number, address) = policy.number();
        let mut start = 0;
        let reason = native::address_allocate(&mut self.block, size, alignment, number, address, &mut start);
        done(reason, Asked::size(size))?;
        Ok(RangeInclusive::granted(start, size))
    }

    /// Takes back a range that is granted, just so. Free ranges that touch become one.
    ///
    /// Refused: any range that is not granted (`Error::ResourceNotAvailable`).
    pub fn free(&mut self, key: &RangeInclusive) -> Result<()> {
        let (start, end) = (key.start(), key.end());
        done(native::address_free(&mut self.block, start, end), Asked::range(start, end))
    }

    /// The pool's first address.
    pub fn base(&self) -> u64 {
        native::address_base(&self.block)
    }

    /// The pool's last address.
    pub fn end(&self) -> u64 {
        native::address_end(&self.block)
    }

    /// How many addresses are free.
    ///
    /// ```
    /// use rangekeeper::{AddressAllocator, AllocPolicy, Error};
    ///
    /// let mut pool = AddressAllocator::new(0x1000, 0x100)?;
    /// assert_eq!((pool.free_addresses(), pool.largest_free()), (0x100, 0x100));
    /// pool.allocate(0x40, 1, AllocPolicy::ExactMatch(0x1010))?;
    /// assert_eq!((pool.free_addresses(), pool.largest_free()), (0xc0, 0xb0));
    /// # Ok::<(), Error>(())
    /// ```
    pub fn free_addresses(&self) -> u64 {
        self.left().0
    }

    /// The size of the largest free range, the greatest for which there is a place at alignment 1; 0 where nothing is free.
    pub fn largest_free(&self) -> u64 {
        self.left().1
    }

    /// Both. A block that holds an allocator is not refused, and this one holds one.
    fn left(&self) -> (u64, u64) {
        let (mut free, mut largest) = (0, 0);
        native::address_left(&self.block, &mut free, &mut largest);
        (free, largest)
    }

    /// How many ranges, free and granted together, it may hold.
    pub fn limit(&self) -> usize {
        self.limit
    }

    /// The allocator as bytes, in the format of `docs/FORMAT.md`: pool, limit and granted ranges.
    ///
    /// ```
    /// use rangekeeper::{AddressAllocator, AllocPolicy};
    ///
    /// let mut pool = AddressAllocator::new(0x1000, 0x1000)?;
    /// pool.allocate(0x100, 0x100, AllocPolicy::FirstMatch)?;
    /// let bytes = pool.to_bytes();
    /// let (resumed, read) = AddressAllocator::from_bytes(&bytes)?;
    /// assert_eq!((resumed, read), (pool, bytes.len()));
    /// # Ok::<(), Box<dyn std::error::Error>>(())
    /// ```
    pub fn to_bytes(&self) -> Vec<u8> {
        let mut bytes = zeros(native::address_saved_bytes(&self.block));
        let mut written = 0;
        native::address_save(&self.block, &mut bytes, &mut written);
        bytes.truncate(written);
        bytes
    }

    /// The allocator with which the bytes begin, and how many bytes it takes; what is behind them is not looked at.
    ///
    /// Refused: bytes that [`to_bytes`](Self::to_bytes) of no allocator answers, with what is wrong with them, and where.
    pub fn from_bytes(bytes: &[u8]) -> core::result::Result<(Self, usize), Unreadable> {
        // A block of no words is too short for every allocator: the bytes are right where that is all that is wrong.
        let mut at = 0;
        let reason = native::address_load(bytes, &mut [], &mut at);
        if reason != native::reason::NO_ROOM {
            read(reason, at)?;
        }
        let mut block = block(native::address_words(word(bytes, 4) as usize));
        let used = read(native::address_load(bytes, &mut block, &mut at), at)?;
        Ok((AddressAllocator { block, limit: word(bytes, 4) as usize }, used))
    }

    /// The granted ranges, from the lowest on.
    fn granted(&self) -> Granted<'_> {
        Granted { pool: self, next: Some(self.base()) }
    }

    /// What equality and order go by, the granted ranges aside.
    fn key(&self) -> (u64, u64, usize) {
        (self.base(), self.end(), self.limit)
    }
}

/// A walk over the granted ranges of a pool.
struct Granted<'a> {
    pool: &'a AddressAllocator,
    /// The first address that was not seen yet.
    next: Option<u64>,
}

impl Iterator for Granted<'_> {
    type Item = RangeInclusive;

    fn next(&mut self) -> Option<RangeInclusive> {
        while let Some(address) = self.next {
            let (mut start, mut end, mut tag) = (0, 0, 0);
            let reason = native::address_at(&self.pool.block, address, &mut start, &mut end, &mut tag);
            // Past the pool's last address there is no range.
            self.next = match reason {
                native::reason::DONE => end.checked_add(1),
                _ => None,
            };
            if reason == native::reason::DONE && tag != 0 {
                return RangeInclusive::new(start, end).ok();
            }
        }
        None
    }
}

impl PartialEq for AddressAllocator {
    fn eq(&self, other: &Self) -> bool {
        self.cmp(other) == Ordering::Equal
    }
}

impl Eq for AddressAllocator {}

impl PartialOrd for AddressAllocator {
    fn partial_cmp(&self, other: &Self) -> Option<Ordering> {
        Some(self.cmp(other))
    }
}

impl Ord for AddressAllocator {
    fn cmp(&self, other: &Self) -> Ordering {
        self.key().cmp(&other.key()).then_with(|| self.granted().cmp(other.granted()))
    }
}

impl fmt::Debug for AddressAllocator {
    fn fmt(&self, f: &mut fmt::Formatter<'_>) -> fmt::Result {
        f.debug_struct("AddressAllocator")
            .field("base", &self.base())
            .field("end", &self.end())
            .field("limit", &self.limit)
            .field("granted", &self.granted().collect::<Vec<_>>())
            .finish()
    }
}
