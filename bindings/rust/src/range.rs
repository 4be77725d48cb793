//! Closed ranges of addresses.

use crate::{Error, Result};

/// The addresses from a first to a last one, both included.
///
/// ```
/// use rangekeeper::{Error, RangeInclusive};
///
/// let window = RangeInclusive::new(0x1000, 0x1fff)?;
/// assert_eq!((window.start(), window.end(), window.len()), (0x1000, 0x1fff, 0x1000));
///
/// let inside = RangeInclusive::new(0x1100, 0x11ff)?;
/// assert!(window.contains(&inside) && !inside.contains(&window));
///
/// let across = RangeInclusive::new(0x1800, 0x27ff)?;
/// assert!(window.overlaps(&across) && !window.contains(&across));
///
/// assert_eq!(RangeInclusive::new(2, 1), Err(Error::InvalidRange(2, 1)));
/// # Ok::<(), Error>(())
/// ```
#[derive(Copy, Clone, PartialEq, Eq, PartialOrd, Ord, Hash, Debug)]
pub struct RangeInclusive {
    start: u64,
    end: u64,
}

// No range is empty.
#[allow(clippy::len_without_is_empty)]
impl RangeInclusive {
    /// The range from `start` to `end`. [`Error::InvalidRange`]: `end` lies below `start`, or the two are the ends of all 64-bit addresses,
    /// whose number does not fit a `u64`.
    pub fn new(start: u64, end: u64) -> Result<Self> {
        if end < start || end - start == u64::MAX {
            return Err(Error::InvalidRange(start, end));
        }
        Ok(RangeInclusive { start, end })
    }

    /// The range of the `size` addresses from `start` on, which the library granted: so the size is not 0, and the last is an address.
    pub(crate) fn granted(start: u64, size: u64) -> Self {
        RangeInclusive { start, end: start + (size - 1) }
    }

    /// The number of its addresses.
    pub fn len(&self) -> u64 {
        self.end - self.start + 1
    }

    /// Whether the two have an address in common.
    pub fn overlaps(&self, other: &RangeInclusive) -> bool {
        self.start <= other.end && other.start <= self.end
    }

    /// Whether each address of `other` is one of this range.
    pub fn contains(&self, other: &RangeInclusive) -> bool {
        self.start <= other.start && other.end <= self.end
    }

    /// Its first address.
    pub fn start(&self) -> u64 {
        self.start
    }

    /// Its last address.
    pub fn end(&self) -> u64 {
        self.end
    }
}
