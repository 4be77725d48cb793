//! Several things or none.

use core::fmt;

use crate::error::{done, Asked};
use crate::{native, AddressAllocator, Constraint, Error, IdAllocator, RangeInclusive};

/// Whose refusal it was.
#[derive(Copy, Clone, PartialEq, Eq, PartialOrd, Ord, Debug)]
pub enum Which {
    /// The first pool's.
    First,
    /// The second pool's.
    Second,
    /// The ids'.
    Ids,
}

/// Why several things were not granted. Each allocator then holds just what it held before.
#[derive(Copy, Clone, PartialEq, Eq, PartialOrd, Ord, Debug)]
pub struct Refused {
    /// Whose refusal it was.
    pub which: Which,
    /// The reason.
    pub error: Error,
}

impl fmt::Display for Refused {
    fn fmt(&self, f: &mut fmt::Formatter<'_>) -> fmt::Result {
        let who = match self.which {
            Which::First => "the first pool",
            Which::Second => "the second pool",
            Which::Ids => "the ids",
        };
        write!(f, "{who}: {}", self.error)
    }
}

impl core::error::Error for Refused {}

/// `Ok` for the reason 0, and for any other the error that it stands for, with whose it was.
fn answer(reason: u32, refused: u32, one: Constraint, two: Constraint) -> core::result::Result<(), Refused> {
    let (which, asked) = match refused {
        1 => (Which::First, Asked::size(one.size())),
        2 => (Which::Second, Asked::size(two.size())),
        _ => (Which::Ids, Asked::default()),
    };
    done(reason, asked).map_err(|error| Refused { which, error })
}

/// Grants a range of each of two pools, or of neither: `one` of the first, then `two` of the second.
///
/// ```
/// use rangekeeper::{both, AddressAllocator, AllocPolicy, Constraint, Error, Which};
///
/// let mut memory = AddressAllocator::new(0xd000_0000, 0x1000_0000)?;
/// let mut ports = AddressAllocator::new(0xc000, 0x100)?;
/// let window = Constraint::new(0x1000, 0x1000, AllocPolicy::FirstMatch)?;
/// let few = Constraint::new(0x80, 0x80, AllocPolicy::FirstMatch)?;
/// let many = Constraint::new(0x100, 0x100, AllocPolicy::FirstMatch)?;
///
/// let (w, p) = both(&mut memory, window, &mut ports, few).unwrap();
/// assert_eq!((w.start(), p.start()), (0xd000_0000, 0xc000));
///
/// let before = memory.clone();
/// let refused = both(&mut memory, window, &mut ports, many).unwrap_err();
/// assert_eq!((refused.which, refused.error), (Which::Second, Error::ResourceNotAvailable));
/// assert_eq!(memory, before);
/// # Ok::<(), Error>(())
/// ```
pub fn both(
    first: &mut AddressAllocator,
    one: Constraint,
    second: &mut AddressAllocator,
    two: Constraint,
) -> core::result::Result<(RangeInclusive, RangeInclusive), Refused> {
    let (mut starts, mut refused) = ([0; 2], 0);
    let reason = native::both(first.lent(), one.numbers(), second.lent(), two.numbers(), &mut starts, &mut refused);
    answer(reason, refused, one, two)?;
    Ok((RangeInclusive::granted(starts[0], one.size()), RangeInclusive::granted(starts[1], two.size())))
}

/// Grants a range of each of two pools and the lowest free id, or nothing of the three.
///
/// ```
/// use rangekeeper::{all_three, AddressAllocator, AllocPolicy, Constraint, Error, IdAllocator, Which};
///
/// let mut memory = AddressAllocator::new(0xd000_0000, 0x1000_0000)?;
/// let mut ports = AddressAllocator::new(0xc000, 0x100)?;
/// let mut irqs = IdAllocator::new(5, 5)?;
/// let window = Constraint::new(0x1000, 0x1000, AllocPolicy::FirstMatch)?;
/// let some = Constraint::new(0x10, 0x10, AllocPolicy::FirstMatch)?;
///
/// let (_, _, irq) = all_three(&mut memory, window, &mut ports, some, &mut irqs).unwrap();
/// assert_eq!(irq, 5);
///
/// let before = (memory.clone(), ports.clone());
/// let refused = all_three(&mut memory, window, &mut ports, some, &mut irqs).unwrap_err();
/// assert_eq!((refused.which, refused.error), (Which::Ids, Error::ResourceNotAvailable));
/// assert_eq!((memory, ports), before);
/// # Ok::<(), Error>(())
/// ```
pub fn all_three(
    first: &mut AddressAllocator,
    one: Constraint,
    second: &mut AddressAllocator,
    two: Constraint,
    ids: &mut IdAllocator,
) -> core::result::Result<(RangeInclusive, RangeInclusive, u32), Refused> {
    let (mut starts, mut id, mut refused) = ([0; 2], 0, 0);
    let reason = native::all_three(
        first.lent(),
        one.numbers(),
        second.lent(),
        two.numbers(),
        ids.lent(),
        &mut starts,
        &mut id,
        &mut refused,
    );
    answer(reason, refused, one, two)?;
    Ok((RangeInclusive::granted(starts[0], one.size()), RangeInclusive::granted(starts[1], two.size()), id))
}
