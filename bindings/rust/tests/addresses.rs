//! The address allocator: what it grants and refuses, and the run of the project's description.

use rangekeeper::{AddressAllocator, AllocPolicy, Error, RangeInclusive};
use AllocPolicy::{ExactMatch, FirstMatch, LastMatch};

fn range(start: u64, end: u64) -> RangeInclusive {
    RangeInclusive::new(start, end).unwrap()
}

/// One step of a run: a request with the range that it gets, or the reason why not; or a give-back with its answer.
enum Step {
    Ask(u64, u64, AllocPolicy, Result<(u64, u64), Error>),
    Give(u64, u64, Result<(), Error>),
}

use Step::{Ask, Give};

fn run(base: u64, size: u64, steps: &[Step]) -> AddressAllocator {
    let mut pool = AddressAllocator::new(base, size).unwrap();
    for (number, step) in steps.iter().enumerate() {
        match *step {
            Ask(size, align, policy, expected) => {
                let before = pool.clone();
                let answer = pool.allocate(size, align, policy);
                assert_eq!(answer, expected.map(|(start, end)| range(start, end)), "step {number}");
                assert_eq!(pool == before, answer.is_err(), "step {number}");
            }
            Give(start, end, expected) => {
                let before = pool.clone();
                assert_eq!(pool.free(&range(start, end)), expected, "step {number}");
                assert_eq!(pool == before, expected.is_err(), "step {number}");
            }
        }
    }
    pool
}

#[test]
fn pools_that_cannot_be() {
    assert_eq!(AddressAllocator::new(u64::MAX, 0x100).unwrap_err(), Error::Overflow);
    assert_eq!(AddressAllocator::new(1, u64::MAX).map(|p| p.end()), Ok(u64::MAX));
    assert_eq!(AddressAllocator::new(2, u64::MAX).unwrap_err(), Error::Overflow);
    assert_eq!(AddressAllocator::new(0x1000, 0).unwrap_err(), Error::Underflow);
}

#[test]
fn the_ends_of_the_pool() {
    let pool = AddressAllocator::new(0x1000, 0x10000).unwrap();
    assert_eq!((pool.base(), pool.end(), pool.limit()), (0x1000, 0x10fff, 4096));
    let pool = AddressAllocator::new(u64::MAX, 1).unwrap();
    assert_eq!((pool.base(), pool.end()), (u64::MAX, u64::MAX));
}

#[test]
fn requests_that_are_not_in_order() {
    run(
        0x1000,
        0x10000,
        &[
            Ask(0x100, 0, FirstMatch, Err(Error::InvalidAlignment)),
            Ask(0x100, 200, FirstMatch, Err(Error::InvalidAlignment)),
            Ask(0, 0x1000, FirstMatch, Err(Error::InvalidSize(0))),
            Ask(0x1000, 0x1000, ExactMatch(3), Err(Error::UnalignedAddress)),
        ],
    );
}

#[test]
fn exact_at_both_ends() {
    run(
        0,
        0x2000,
        &[
            Ask(0x1000, 0x1000, ExactMatch(0x1000), Ok((0x1000, 0x1fff))),
            Ask(0, 0x1000, FirstMatch, Err(Error::InvalidSize(0))),
            Ask(0x1000, 0x1000, ExactMatch(3), Err(Error::UnalignedAddress)),
            Ask(0x1000, 0x1000, ExactMatch(0), Ok((0, 0xfff))),
        ],
    );
}

#[test]
fn exact_between_two_granted_ranges() {
    run(
        0x1000,
        0x1000,
        &[
            Ask(0x800, 0x100, FirstMatch, Ok((0x1000, 0x17ff))),
            Ask(0x200, 0x100, ExactMatch(0x1a00), Ok((0x1a00, 0x1bff))),
            Ask(0x800, 0x100, ExactMatch(0x1800), Err(Error::ResourceNotAvailable)),
            Ask(0x100, 0x100, ExactMatch(0x1800), Ok((0x1800, 0x18ff))),
        ],
    );
}

#[test]
fn not_enough_space() {
    run(
        0x1000,
        0x1000,
        &[
            Ask(0x800, 0x100, LastMatch, Ok((0x1800, 0x1fff))),
            Ask(0x900, 0x100, FirstMatch, Err(Error::ResourceNotAvailable)),
            Ask(0x400, 0x100, FirstMatch, Ok((0x1000, 0x13ff))),
        ],
    );
}

#[test]
fn aligned_from_below() {
    run(
        0x1000,
        0x1000,
        &[
            Ask(0x110, 0x100, FirstMatch, Ok((0x1000, 0x110f))),
            Ask(0x100, 0x100, FirstMatch, Ok((0x1200, 0x12ff))),
            Ask(0x10, 0x100, FirstMatch, Ok((0x1300, 0x130f))),
        ],
    );
}

#[test]
fn aligned_from_above() {
    run(
        0x1000,
        0x10000,
        &[
            Ask(0x110, 0x100, LastMatch, Ok((0x10e00, 0x10f0f))),
            Ask(0x100, 0x100, LastMatch, Ok((0x10d00, 0x10dff))),
            Ask(0x10, 0x100, LastMatch, Ok((0x10c00, 0x10c0f))),
        ],
    );
}

#[test]
fn given_back_and_granted_again() {
    run(
        0x1000,
        0x1000,
        &[
            Ask(0x800, 0x100, FirstMatch, Ok((0x1000, 0x17ff))),
            Give(0x1000, 0x17ff, Ok(())),
            Ask(0x800, 0x100, FirstMatch, Ok((0x1000, 0x17ff))),
        ],
    );
}

#[test]
fn one_address_is_left_below() {
    run(1, 1000, &[Ask(10, 2, FirstMatch, Ok((2, 11))), Ask(1, 1, FirstMatch, Ok((1, 1)))]);
}

#[test]
fn a_refusal_first() {
    run(
        0,
        0x1000,
        &[
            Ask(0x2000, 0x100, FirstMatch, Err(Error::ResourceNotAvailable)),
            Give(0x1200, 0x3200, Err(Error::ResourceNotAvailable)),
            Ask(0x4fe, 0x100, ExactMatch(0x500), Ok((0x500, 0x9fd))),
            Give(0x500, 0x9fd, Ok(())),
        ],
    );
}

#[test]
fn the_run_of_the_description() {
    let pool = run(
        0x1000,
        0x10000,
        &[
            Ask(0x800, 0x100, FirstMatch, Ok((0x1000, 0x17ff))),
            Ask(0x400, 0x1000, FirstMatch, Ok((0x2000, 0x23ff))),
            Ask(0x400, 0x100, LastMatch, Ok((0x10c00, 0x10fff))),
            Ask(0x100, 0x100, ExactMatch(0x1800), Ok((0x1800, 0x18ff))),
            Ask(0x100, 0x100, ExactMatch(0x1850), Err(Error::UnalignedAddress)),
            Give(0x1000, 0x17fe, Err(Error::ResourceNotAvailable)),
            Give(0x1000, 0x17ff, Ok(())),
            Give(0x1800, 0x18ff, Ok(())),
            Give(0x2000, 0x23ff, Ok(())),
            Give(0x10c00, 0x10fff, Ok(())),
        ],
    );
    assert_eq!(pool, AddressAllocator::new(0x1000, 0x10000).unwrap());
}
