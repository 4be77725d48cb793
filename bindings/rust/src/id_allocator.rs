//! Numbers of an interval.

use alloc::vec::Vec;
use core::fmt;

use crate::error::{done, Asked};
use crate::saved::{read, Unreadable};
use crate::{block, native, word, zeros, Error, Result};

/// Grants the numbers of an interval, the lowest that is not granted first, and takes them back.
///
/// Two allocators are equal if they have the same interval, the same ids are granted, and as many were ever granted, whatever was done
/// before.
///
/// ```
/// use rangekeeper::{Error, IdAllocator};
///
/// let mut irqs = IdAllocator::new(5, 23)?;
/// assert_eq!((irqs.allocate_id()?, irqs.allocate_id()?), (5, 6));
/// assert!(irqs.is_allocated(6) && !irqs.is_allocated(7));
/// assert_eq!(irqs.free_id(5)?, 5);
/// assert_eq!(irqs.free_id(5), Err(Error::AlreadyReleased(5)));
/// assert_eq!(irqs.free_id(7), Err(Error::NeverAllocated(7)));
/// assert_eq!(irqs.free_id(24), Err(Error::OutOfRange(24)));
/// assert_eq!(irqs.allocate_id()?, 5);
/// # Ok::<(), Error>(())
/// ```
#[derive(Clone)]
pub struct IdAllocator {
    /// What the library knows; how it lies there is the library's alone.
    block: Vec<u64>,
    lowest: u32,
    highest: u32,
}

impl IdAllocator {
    /// An allocator of the ids from `range_base` to `range_end`, both included. It takes a bit for each of them, and a little more.
    ///
    /// Refused: `range_end` below `range_base` (`Error::InvalidRange`); no memory (`Error::NoRoom`).
    pub fn new(range_base: u32, range_end: u32) -> Result<Self> {
        let mut block = block(native::id_words(range_base, range_end));
        let reason = native::id_new(&mut block, range_base, range_end);
        done(reason, Asked::range(range_base.into(), range_end.into()))?;
        Ok(IdAllocator { block, lowest: range_base, highest: range_end })
    }

    /// The block, to be lent for a call.
    pub(crate) fn lent(&mut self) -> &mut [u64] {
        &mut self.block
    }

    /// Grants the lowest id that is not granted.
    ///
    /// Of any sequence of calls: between two grants of one id there was a [`free_id`](Self::free_id) of it that was answered with the id.
    ///
    /// Refused: none is left (`Error::ResourceNotAvailable`; where the highest id is 2^32 - 1, `Error::Overflow`).
    pub fn allocate_id(&mut self) -> Result<u32> {
        let mut id = 0;
        done(native::id_allocate(&mut self.block, &mut id), Asked::default())?;
        Ok(id)
    }

    /// Takes an id back, and answers it.
    ///
    /// Refused, in this order: no id of the interval (`Error::OutOfRange`); never granted so far (`Error::NeverAllocated`); not granted
    /// now (`Error::AlreadyReleased`).
    pub fn free_id(&mut self, id: u32) -> Result<u32> {
        done(native::id_free(&mut self.block, id), Asked::id(id))?;
        Ok(id)
    }

    /// The allocator as bytes, in the format of `docs/FORMAT.md`: interval, granted ids and next new id.
    ///
    /// ```
    /// use rangekeeper::IdAllocator;
    ///
    /// let mut irqs = IdAllocator::new(5, 23)?;
    /// irqs.allocate_id()?;
    /// let bytes = irqs.to_bytes();
    /// let (resumed, read) = IdAllocator::from_bytes(&bytes)?;
    /// assert_eq!((resumed, read), (irqs, bytes.len()));
    /// # Ok::<(), Box<dyn std::error::Error>>(())
    /// ```
    pub fn to_bytes(&self) -> Vec<u8> {
        let mut bytes = zeros(native::id_saved_bytes(&self.block));
        let mut written = 0;
        native::id_save(&self.block, &mut bytes, &mut written);
        bytes.truncate(written);
        bytes
    }

    /// The allocator with which the bytes begin, and how many bytes it takes; what is behind them is not looked at.
    ///
    /// Refused: bytes that [`to_bytes`](Self::to_bytes) of no allocator answers, with what is wrong with them, and where.
    pub fn from_bytes(bytes: &[u8]) -> core::result::Result<(Self, usize), Unreadable> {
        // A block of no words is too short for every allocator: the bytes are right where that is all that is wrong.
        let mut at = 0;
        let reason = native::id_load(bytes, &mut [], &mut at);
        if reason != native::reason::NO_ROOM {
            read(reason, at)?;
        }
        let (lowest, highest) = (word(bytes, 2) as u32, word(bytes, 3) as u32);
        let mut block = block(native::id_words(lowest, highest));
        let used = read(native::id_load(bytes, &mut block, &mut at), at)?;
        Ok((IdAllocator { block, lowest, highest }, used))
    }

    /// Whether the id is granted now. Of every other number, those outside the interval included, it is false.
    pub fn is_allocated(&self, id: u32) -> bool {
        native::id_is_allocated(&self.block, id)
    }

    /// How many ids are not granted now. vm-allocator has no such question.
    pub fn free_count(&self) -> u64 {
        native::id_free_count(&self.block)
    }

    /// The lowest id that was never granted, if there is one, and below it those that are not granted now. A free tells which is which,
    /// so a copy is asked.
    fn history(&self) -> (Option<u32>, Vec<u32>) {
        let mut copy = self.clone();
        let mut freed = Vec::new();
        for id in self.lowest..=self.highest {
            match copy.free_id(id) {
                Err(Error::AlreadyReleased(_)) => freed.push(id),
                Err(_) => return (Some(id), freed),
                Ok(_) => {}
            }
        }
        (None, freed)
    }
}

impl PartialEq for IdAllocator {
    fn eq(&self, other: &Self) -> bool {
        (self.lowest, self.highest) == (other.lowest, other.highest) && self.history() == other.history()
    }
}

impl Eq for IdAllocator {}

impl fmt::Debug for IdAllocator {
    fn fmt(&self, f: &mut fmt::Formatter<'_>) -> fmt::Result {
        let (next, freed) = self.history();
        f.debug_struct("IdAllocator")
            .field("lowest", &self.lowest)
            .field("highest", &self.highest)
            .field("next", &next)
            .field("freed", &freed)
            .finish()
    }
}
