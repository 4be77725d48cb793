//! Where vm-allocator departs from its documentation, this crate does what is documented: a test for each such sequence.

use rangekeeper::{AddressAllocator, AllocPolicy, Error, RangeInclusive, Result};
use AllocPolicy::{ExactMatch, FirstMatch, LastMatch};

const M: u64 = u64::MAX;

fn range(start: u64, end: u64) -> RangeInclusive {
    RangeInclusive::new(start, end).unwrap()
}

fn pool(first: u64, last: u64) -> AddressAllocator {
    AddressAllocator::new(first, last - first + 1).unwrap()
}

fn granted(start: u64, end: u64) -> Result<RangeInclusive> {
    Ok(range(start, end))
}

#[test]
fn nothing_is_granted_inside_what_is_granted() {
    let mut p = pool(0, 0xfff);
    assert_eq!(p.allocate(0x1000, 4, FirstMatch), granted(0, 0xfff));
    assert_eq!(p.allocate(0x10, 4, ExactMatch(0x100)), Err(Error::ResourceNotAvailable));
    assert_eq!(p.allocate(0x1000, 4, ExactMatch(0)), Err(Error::ResourceNotAvailable));
}

#[test]
fn the_whole_pool_from_above() {
    assert_eq!(pool(0, 0xfff).allocate(0x1000, 4, LastMatch), granted(0, 0xfff));
}

#[test]
fn a_range_from_address_one_is_given_back() {
    let mut p = pool(1, 0x1000);
    assert_eq!(p.allocate(0x10, 1, FirstMatch), granted(1, 0x10));
    assert_eq!(p.free(&range(1, 0x10)), Ok(()));
    assert_eq!(p, pool(1, 0x1000));
}

#[test]
fn a_range_just_below_the_last_address_is_given_back() {
    let mut p = pool(M - 0xfff, M);
    assert_eq!(p.allocate(0x10, 1, ExactMatch(M - 0x10)), granted(M - 0x10, M - 1));
    assert_eq!(p.free(&range(M - 0x10, M - 1)), Ok(()));
    assert_eq!(p, pool(M - 0xfff, M));
}

#[test]
fn free_ranges_that_touch_are_one() {
    let mut p = pool(0x10, 0x1f);
    assert_eq!(p.allocate(1, 1, ExactMatch(0x10)), granted(0x10, 0x10));
    assert_eq!(p.allocate(4, 1, ExactMatch(0x11)), granted(0x11, 0x14));
    assert_eq!(p.free(&range(0x10, 0x10)), Ok(()));
    assert_eq!(p.free(&range(0x11, 0x14)), Ok(()));
    assert_eq!(p.allocate(0x10, 1, FirstMatch), granted(0x10, 0x1f));
}

#[test]
fn exact_at_the_last_address_of_a_free_range() {
    assert_eq!(pool(0x10, 0x1f).allocate(1, 1, ExactMatch(0x1f)), granted(0x1f, 0x1f));
}

#[test]
fn a_grant_may_end_at_the_highest_address() {
    assert_eq!(pool(M - 0xfff, M).allocate(0x10, 1, LastMatch), granted(M - 0xf, M));
    assert_eq!(pool(M - 0xfff, M).allocate(0x1000, 1, FirstMatch), granted(M - 0xfff, M));
    assert_eq!(pool(M - 0xfff, M).allocate(0x10, 1, ExactMatch(M - 0xf)), granted(M - 0xf, M));
    let half = 1 << 63;
    assert_eq!(pool(1, M).allocate(half, half, ExactMatch(half)), granted(half, M));
    // What would end beyond it: "overflow" where the address is free.
    assert_eq!(pool(M - 0xfff, M).allocate(0x11, 1, ExactMatch(M - 0xf)), Err(Error::Overflow));
}

#[test]
fn exact_at_the_highest_address_outside_the_pool() {
    assert_eq!(pool(0, 0xfff).allocate(1, 1, ExactMatch(M)), Err(Error::ResourceNotAvailable));
}

#[test]
fn what_is_not_granted_is_not_given_back() {
    assert_eq!(pool(0x10, 0x1f).free(&range(0x10, 0x1f)), Err(Error::ResourceNotAvailable));
}

#[test]
fn a_full_table_refuses_and_loses_nothing() {
    let mut p = AddressAllocator::with_limit(0, 0x100, 3).unwrap();
    assert_eq!(p.allocate(0x10, 1, ExactMatch(0x80)), granted(0x80, 0x8f));
    let before = p.clone();
    assert_eq!(p.allocate(0x10, 1, ExactMatch(0x20)), Err(Error::NoRoom));
    assert_eq!(p, before);
    // One that needs no more ranges than there are.
    assert_eq!(p.allocate(0x80, 1, FirstMatch), granted(0, 0x7f));
    assert_eq!(p.free(&range(0x80, 0x8f)), Ok(()));
    assert_eq!(p.free(&range(0, 0x7f)), Ok(()));
    assert_eq!(p, AddressAllocator::with_limit(0, 0x100, 3).unwrap());
}
